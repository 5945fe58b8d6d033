"""Measures of `datacube print` that are drawn too: against records and dimensions, and by the number of threads."""
import os
import tempfile
from concurrent.futures import ProcessPoolExecutor

from measure import DATACUBE, ROOT, best_of, cell, head, row
from peers import PEERS, installed
from runs import by_threads
from workloads import WORKLOADS, make_of

SCALES = (1, 2, 4, 8, 16)
DIMENSIONS = range(2, 9)
THREADS = (1, 2, 3, 4)


def measured(name, shape, scale, runs):
    # (the feed is made by another process, since a program's largest memory is at least that of the one that began it)
    with tempfile.TemporaryDirectory() as folder, ProcessPoolExecutor(1) as maker:
        files = maker.submit(make_of, folder, name, shape, 1, scale).result()
        return best_of([[DATACUBE, "print", *files]], runs)[0]


def drawn(name, width, height, count, draw):
    """Draws fields side by side, to docs/NAME.svg."""
    try:
        import matplotlib
    except ImportError:
        print(f"left out, since python3-matplotlib isn't installed: docs/{name}.svg")
        return
    matplotlib.use("svg")
    matplotlib.rcParams.update({"svg.hashsalt": name, "svg.fonttype": "none", "font.size": 9})
    from matplotlib import pyplot

    figure, fields = pyplot.subplots(1, count, figsize=(width, height), squeeze=False, layout="constrained")
    draw(fields[0])
    figure.savefig(os.path.join(ROOT, "docs", f"{name}.svg"), metadata={"Date": None})


def growth(asked):
    """Measures `datacube print` over more and more records and over 2 to 8 dimensions, and draws docs/growth.svg.

    The first table has each workload with 1 to 16 times its records, with the defaults over one feed, the second 100,000 inserts
    with 2 to 8 dimensions of 4 values each, so 4 to 256 grouping sets. The plot has a line for each workload, processor seconds against
    records, both by powers of ten: where time grows with the records, the line rises by one power for each."""
    scales = [scale for scale in SCALES if scale <= asked.most]
    head("", *(f"× {scale}" for scale in scales))
    lines = {}
    for name in asked.workloads or WORKLOADS:
        uses = [measured(name, WORKLOADS[name], scale, asked.runs) for scale in scales]
        lines[name] = [WORKLOADS[name][0] * scale for scale in scales], [use.processor for use in uses]
        row(f"`{name}`", *map(cell, uses))
    print()
    head("dimensions", "grouping sets", "print")
    for count in DIMENSIONS:
        shape = 100_000, (4,) * count, {"amount": (1, 100_000)}, 0, 0
        row(count, 2**count, cell(measured(f"{count} dimensions", shape, 1, asked.runs)))

    def draw(fields):
        [axes] = fields
        for name, (records, seconds) in lines.items():
            axes.loglog(records, seconds, marker="o", markersize=4, label=name)
        axes.set(xlabel="records", ylabel="processor seconds")
        axes.grid(color="#ddd")
        axes.legend()

    drawn("growth", 6.4, 4, 1, draw)


def threads(asked):
    """Measures `datacube print` and its peers with 1 to 4 threads, and draws docs/threads.svg.

    The job, the peers and the comparing of answers are those of `print`. A cell has wall seconds and processor seconds of all processes.
    The plot has a field for each workload: wall seconds as a line, processor seconds as a line of dots, against the number of threads."""
    peers = installed(asked.peers, PEERS)
    names, found = ["datacube print", *peers], {}
    head("", "threads", *names)
    for name in asked.workloads or WORKLOADS:
        found[name] = [by_threads(name, asked, list(peers.values()), count) for count in THREADS]
        for count, uses in zip(THREADS, found[name]):
            row(f"`{name}`" if count == THREADS[0] else "", count, *(f"{use.wall:.2f}, {use.processor:.2f}" for use in uses))

    def draw(fields):
        for axes, (name, by_count) in zip(fields, found.items()):
            for at, program in enumerate(names):
                axes.plot(THREADS, [uses[at].wall for uses in by_count], color=f"C{at}", label=program)
                axes.plot(THREADS, [uses[at].processor for uses in by_count], color=f"C{at}", linestyle=":")
            axes.set(title=name, xticks=THREADS, ylim=(0, None))
            axes.grid(axis="y", color="#ddd")
        fields[0].legend(fontsize=7)

    drawn("threads", 1.9 * len(found), 2.5, len(found), draw)
