"""What processes take: their time and memory, as /proc says, and how times are told."""
import os
import statistics

import programs


def stat_of(process):
    """What the system says of a process, from its state on."""
    return programs.text_at(f"/proc/{process}/stat").rpartition(")")[2].split()


def spent_by(process, has_children=True):
    """Processor seconds of a process, and of those that it started and that have ended."""
    return sum(map(int, stat_of(process)[11 : 15 if has_children else 13])) / os.sysconf("SC_CLK_TCK")


def memory_of(process):
    """A process's memory in MiB, with its share of what it has with others."""
    lines = programs.text_at(f"/proc/{process}/smaps_rollup").splitlines()
    return next((int(line.split()[1]) for line in lines if line.startswith("Pss:")), 0) / 1024


def of_family(first, figure):
    """A figure of a process, of those that it started, and so on, added up; those that have ended meanwhile have none."""
    parents = {}
    for process in filter(str.isdigit, os.listdir("/proc")):
        parents.setdefault(told(lambda: int(stat_of(process)[1])), []).append(int(process))
    family = [first]
    for process in family:
        family += parents.get(process, [])
    return sum(told(lambda: figure(process)) for process in family)


def say_times(name, seconds, wide=44):
    """Says the middle of times, the 99th of a hundred, and the largest, in milliseconds, behind a name."""
    ordered = sorted(it * 1000 for it in seconds)
    middle, late = statistics.median(ordered), ordered[len(ordered) * 99 // 100]
    print(f"{name:{wide}} median {middle:9.3f} ms   99% {late:9.3f} ms   most {ordered[-1]:9.3f} ms   of {len(ordered)}", flush=True)


def told(figure):
    """A figure of a process, 0 where it has ended."""
    try:
        return figure()
    except OSError:
        return 0
