#!/usr/bin/env python3
"""The workloads of the measurements: schemas and feeds, made anew and the same on every machine.

    scripts/workloads.py WORKLOAD FOLDER [--sources N] [--scale F]

writes the schema and the feeds of one to a folder, and prints their paths.
"""
import os
import random
import sys

sys.dont_write_bytecode = True
import oracle
import programs

# records, the number of values of each dimension, measures with their ranges, shares of updates and of deletes
WORKLOADS = {
    "wide": (12_500, (2, 2, 3, 3, 3, 4, 4, 5), {"amount": (1, 100_000)}, 0, 0),
    "tall": (250_000, (20, 20, 15, 12), {"amount": (1, 1_000_000), "qty": (1, 100)}, 0, 0),
    "churn": (250_000, (30, 25, 12, 8), {"amount": (1, 1_000_000)}, 0.3, 0.2),
    "many": (320_000, (40, 10, 10, 6), {"amount": (1, 100_000)}, 0.2, 0.1),
    "sparse": (75_000, (2000, 1000, 500, 300), {"amount": (-(10**12), 10**12)}, 0, 0),
}


class Source:
    """One feed as it is written: the ids that are present, and the file."""

    def __init__(self, path, header):
        self.out = open(path, "w")
        self.out.write(header)
        self.present, self.next = [], 1

    def change(self, pick, values, updates, deletes):
        kind = pick.random()
        if kind < updates + deletes and self.present:
            at = pick.randrange(len(self.present))
            if kind < updates:
                self.out.write(f"U,{self.present[at]},{values}\n")
            else:
                self.present[at], self.present[-1] = self.present[-1], self.present[at]
                self.out.write(f"D,{self.present.pop()}\n")
        else:
            name = f"order-{self.next}"
            self.next += 1
            self.present.append(name)
            self.out.write(f"I,{name},{values}\n")


def values(pick, cards, measures):
    """The fields of a fact: of each dimension one of so many values, of each measure a number in its range."""
    texts = [f"value-{int(card * pick.random() ** 1.5)}" for card in cards]
    return ",".join(texts + [str(pick.randint(*ends)) for ends in measures.values()])


def make(folder, name, sources, scale):
    """Writes the schema and the feeds of a workload; answers their paths."""
    return make_of(folder, name, WORKLOADS[name], sources, scale)


def make_of(folder, name, shape, sources, scale):
    """Writes the schema and the feeds of a workload of this shape, whose name chooses its values; answers their paths."""
    records, cards, measures, updates, deletes = shape
    pick = random.Random(f"{name} {sources}")
    dimensions = [f"d{at + 1}" for at in range(len(cards))]
    schema = f"{folder}/schema.toml"
    aggregates = [("count", None), *((kind, at) for at in range(len(measures)) for kind in ("sum", "min", "max", "avg"))]
    programs.write(schema, oracle.Schema(dimensions, list(measures), aggregates).toml())
    header = ",".join(["op", "id", *dimensions, *measures]) + "\n"
    paths = [f"{folder}/feed{at + 1}.csv" for at in range(sources)]
    feeds = [Source(path, header) for path in paths]
    for at in range(int(records * scale)):
        feeds[at % sources].change(pick, values(pick, cards, measures), updates, deletes)
    for feed in feeds:
        feed.out.close()
    return [schema, *paths]


def main():
    words = programs.words_of(__doc__, workload={"choices": WORKLOADS}, folder={}, sources=1, scale=1.0)
    os.makedirs(words.folder, exist_ok=True)
    print(*make(words.folder, words.workload, words.sources, words.scale))


if __name__ == "__main__":
    main()
