"""A writer of random transactions, a process of its own: `run N` on standard input makes it commit or give up N of them.

    writers.py DSN TABLE SEED

It answers with the numbers of transactions that it committed and of rows that they changed, as `{"transactions": 90, "changes": 200}`."""
from __future__ import annotations

import json
import random
import sys
from typing import Any, Callable, List, Tuple

import psycopg2
import psycopg2.errors

TEXTS = [
    "York", "Leeds", "", " ", "tea, green", 'say "tea"', '"', "two\nlines", "end\r\n", "\r", "a\ttab", "\\", "\\N", "\\=", "\\N ", "n\\N", "\\\\N", "\\n", "\\.", "NULL",
    "null", "ALL", "?", "=York", "\\A", "it's", "é", "e\u0301", "ß", "Ω", "Ёж", "שלום", "مرحبا", "汉字", "日本語", "한국어", "ไทย", "हिन्दी", "😀", "👩‍👩‍👧",
    "\ufeffmark", "\u2028", "\u0085", "\x01", "\x7f", "\uffff", "\U0010ffff", "x" * 40,
]
KINDS = ["", "a", "b, c", '["a"]']
KEYS = 60
GIVEN_UP = (psycopg2.errors.UniqueViolation, psycopg2.errors.DeadlockDetected, psycopg2.errors.SerializationFailure)


class Writer:
    """Makes transactions, and counts the rows that those which it committed changed."""

    def __init__(self, dsn: str, table: str, seed: str) -> None:
        self.connection = psycopg2.connect(dsn, application_name="writer")
        self.table, self.rng = table, random.Random(seed)
        self.transactions = self.changes = 0

    def run(self, count: int) -> None:
        for _ in range(count):
            try:
                with self.connection.cursor() as self.cursor:
                    changed = self.one()
                if self.rng.random() < 0.1:
                    self.connection.rollback()
                    continue
                self.connection.commit()
                self.transactions += 1
                self.changes += changed
            except GIVEN_UP:
                self.connection.rollback()

    def one(self) -> int:
        """A transaction's work; gives the number of changes."""
        if self.rng.random() < 0.004:
            return self.truncate()
        steps: List[Callable[[], int]] = [self.insert, self.insert, self.update, self.update, self.move, self.delete, self.delete, self.put, self.swap, self.many, self.other]
        return sum(self.maybe_undone(self.rng.choice(steps)) for _ in range(self.rng.choice([1, 1, 2, 5])))

    def maybe_undone(self, step: Callable[[], int]) -> int:
        """A step, which is undone sometimes, by itself or within a step that stays."""
        if self.rng.random() < 0.7:
            return step()
        name = f"point_{self.rng.randrange(10**9)}"
        self.cursor.execute(f"SAVEPOINT {name}")
        changed = self.maybe_undone(step)
        if self.rng.random() < 0.5:
            self.cursor.execute(f"ROLLBACK TO SAVEPOINT {name}")
            return 0
        self.cursor.execute(f"RELEASE SAVEPOINT {name}")
        return changed

    def execute(self, text: str, *values: Any) -> int:
        self.cursor.execute(text.format(table=self.table), values)
        return int(self.cursor.rowcount)

    def key(self) -> Tuple[str, int]:
        return self.rng.choice(KINDS), self.rng.randrange(KEYS)

    def text(self) -> Any:
        return None if self.rng.random() < 0.15 else self.rng.choice(TEXTS)

    def values(self) -> List[Any]:
        rng = self.rng
        numbers = [None, 0, 1, -1, rng.randrange(-1000, 1000), 2**63 - 1, -(2**63)]
        prices = [None, "0.00", "-0.01", f"{rng.randrange(10**5)}.{rng.randrange(100):02}", "9999999999.99"]
        # (some texts are so long that they lie outside of the row)
        city = self.text() if rng.random() < 0.97 else "".join(rng.choices("abcdefghijklmnopqrstuvwxyz", k=20000))
        return [city, self.text(), rng.choice([None, True, False]), rng.choice(prices), rng.choice(numbers)]

    def insert(self) -> int:
        return self.execute("INSERT INTO {table} VALUES (%s, %s, %s, %s, %s, %s, %s) ON CONFLICT DO NOTHING", *self.key(), *self.values())

    def put(self) -> int:
        return self.execute(
            "INSERT INTO {table} VALUES (%s, %s, %s, %s, %s, %s, %s) ON CONFLICT (kind, number) DO UPDATE SET cents = excluded.cents, city = excluded.city",
            *self.key(), *self.values(),
        )

    def update(self) -> int:
        column, value = self.rng.choice(list(zip(["city", "product", "is_paid", "price", "cents", "note"], [*self.values(), "a note"])))
        if self.rng.random() < 0.1:
            return self.execute(f"UPDATE {{table}} SET {column} = %s WHERE number %% 7 = %s", value, self.rng.randrange(7))
        return self.execute(f"UPDATE {{table}} SET {column} = %s WHERE (kind, number) = (%s, %s)", value, *self.key())

    def move(self) -> int:
        """An update of a key, which a long text that didn't change may belong to."""
        keeps = "" if self.rng.random() < 0.5 else ", city = 'moved'"
        return self.execute(
            f"UPDATE {{table}} SET kind = %s, number = %s{keeps} WHERE (kind, number) = (%s, %s) AND (length(city) < 1000 OR city IS NULL)", *self.key(), *self.key()
        )

    def swap(self) -> int:
        """Two rows change their keys."""
        one, other = self.key(), self.key()
        steps = [((one[0], -1), one), (one, other), (other, (one[0], -1))]
        short = "AND (length(city) < 1000 OR city IS NULL)"
        return sum(self.execute(f"UPDATE {{table}} SET kind = %s, number = %s WHERE (kind, number) = (%s, %s) {short}", *new, *old) for new, old in steps)

    def delete(self) -> int:
        return self.execute("DELETE FROM {table} WHERE (kind, number) = (%s, %s)", *self.key())

    def many(self) -> int:
        """Many rows by one statement, and some of them gone again."""
        first = 10**6 + self.rng.randrange(10**12)
        made = self.execute("INSERT INTO {table} SELECT 'a', n, 'many ' || n %% 3, %s, NULL, n %% 100, n FROM generate_series(%s, %s) AS n", self.text(), first, first + 30)
        return made + self.execute("DELETE FROM {table} WHERE kind = 'a' AND number BETWEEN %s AND %s", first, first + self.rng.choice([10, 100]))

    def other(self) -> int:
        self.execute("INSERT INTO other_{table} VALUES ('nothing')")
        return 0

    def truncate(self) -> int:
        """All rows are gone, which is one change."""
        self.execute("TRUNCATE {table}")
        return 1 + self.insert() + self.insert()


def main() -> None:
    writer = Writer(*sys.argv[1:])
    for line in sys.stdin:
        writer.run(int(line.split()[1]))
        print(json.dumps({"transactions": writer.transactions, "changes": writer.changes}), flush=True)


if __name__ == "__main__":
    main()
