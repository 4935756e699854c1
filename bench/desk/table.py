#!/usr/bin/env python3
"""Prints the table of run.sh from FOLDER/ITEMS.PROGRAM.ROUND, whose lines are a name, nanoseconds, the status of the
reply and its length: table.py FOLDER"""
import pathlib
import statistics
import sys


def read(path):
    """By name: the median of the microseconds, how many there are, the statuses, and the largest length."""
    times, seen = {}, {}
    for line in path.read_text().splitlines():
        name, nanoseconds, status, length = line.split("\t")
        times.setdefault(name, []).append(int(nanoseconds) / 1000)
        statuses, most = seen.get(name, (set(), 0))
        seen[name] = statuses | {status}, max(most, int(length))
    return {name: (statistics.median(each), len(each), *seen[name]) for name, each in times.items()}


def best(folder, items, program):
    """By name, that of the best round."""
    rounds = [read(path) for path in sorted(folder.glob(f"{items}.{program}.*"))]
    return {name: min(each[name] for each in rounds) for name in rounds[0]}


def main():
    folder = pathlib.Path(sys.argv[1])
    sizes = (10_000, 100_000)
    desk, plain = ({items: best(folder, items, program) for items in sizes} for program in ("desk", "plain"))
    print("| Request | Requests, statuses, reply | 10,000 items | 100,000 items | Growth | Plain Rust | Ratio |")
    print("|---|---|---|---|---|---|---|")
    for name, (large, count, statuses, length) in desk[sizes[1]].items():
        small = desk[sizes[0]][name][0]
        words = f"{count}, {' '.join(sorted(statuses))}, {length} bytes"
        twins, ratios = "", ""
        if name in plain[sizes[0]]:
            times = [plain[items][name][0] for items in sizes]
            twins = " and ".join(f"{time:,.1f}" for time in times)
            ratios = " and ".join(f"{ours / theirs:.2f}" for ours, theirs in zip((small, large), times))
        print(f"| {name} | {words} | {small:,.1f} | {large:,.1f} | {large / small:.2f} | {twins} | {ratios} |")


if __name__ == "__main__":
    main()
