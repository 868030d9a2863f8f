#!/usr/bin/env python3
"""Prints a table of the times of two programs on the same lattices, the least of all turns.

Usage: table.py OURS THEIRS. Each is a file of lines 'ROWS COLUMNS KIND COURSE TIME us', and more words are left unread.
"""

import sys


def least_times(path):
    """Returns the least time of each lattice and course, in microseconds."""
    times = {}
    with open(path) as lines:
        for line in lines:
            rows, columns, kind, course, time = line.split()[:5]
            case = int(rows), int(columns), kind, course
            times[case] = min(float(time), times.get(case, float("inf")))
    return times


def cells(ours, theirs):
    """Returns what a row of the table says of one course."""
    return f"{ours:,.0f} µs | {theirs:,.0f} µs | {ours / theirs:.1f}"


def main(ours_path, theirs_path):
    ours, theirs = least_times(ours_path), least_times(theirs_path)
    if ours.keys() != theirs.keys():
        sys.exit("the two programs timed different lattices")
    print("| rows × columns | times | middle: `least_regret` | plain C++ | ratio | corner: `least_regret` | plain C++ | ratio |")
    print("|---|---|---|---|---|---|---|---|")
    for rows, columns, kind in dict.fromkeys(case[:3] for case in ours):
        both = [(rows, columns, kind, course) for course in ("middle", "corner")]
        print(f"| {rows} × {columns} | {kind} |", " | ".join(cells(ours[case], theirs[case]) for case in both), "|")
    ratios = {case: ours[case] / theirs[case] for case in ours}
    for what, values, form in ("the greatest ratio", ratios, "{:.1f}"), ("the longest call", ours, "{:,.0f} µs"):
        most = max(values, key=values.get)
        print(what, "is", form.format(values[most]) + ", on", "{} × {} {} {}".format(*most))


main(*sys.argv[1:])
