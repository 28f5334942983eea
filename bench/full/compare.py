"""Times `clear`, and `check` on what it prints, on sheets of full size, against LEMON's network simplex and glpsol on the same networks.

usage: python3 bench/full/compare.py [SHEETS] [RUNS]

It wants g++, LEMON and glpsol (Debian: g++, liblemon-dev, glpk-utils) and the programs of tools/programs in bin/. All worths have to agree: it stops where they
do not. Times are of whole commands, the best of RUNS (5) on each of SHEETS (20) sheets by each of the two kinds of worth.
"""
import os
import re
import subprocess
import sys
import tempfile
import time

import lp
import network
import sheets

HERE = os.path.dirname(os.path.abspath(__file__))
BIN = os.path.join(HERE, "..", "..", "bin")
WIDTH = 40


def timed(command, text, runs):
    """The shortest of so many runs in milliseconds, and what the command printed."""
    best = None
    for _ in range(runs):
        start = time.perf_counter()
        said = subprocess.run(command, input=text, capture_output=True, check=True, text=True).stdout
        spent = (time.perf_counter() - start) * 1000
        best = spent if best is None else min(best, spent)
    return best, said


def worth_of(said):
    """The lines `money M` and `weeks W`, of which there may be none of the second."""
    return [int(line.split()[1]) for line in said.split("\n") if re.match(r"(money|weeks) ", line)]


def by_simplex(folder, nodes, arcs, parts, runs):
    """glpsol on the network: most money, and then most weeks with so much money. Its time is that of both."""
    spent, found = 0, []
    for goal in (3, 4)[:parts]:
        path, out = os.path.join(folder, "x.lp"), os.path.join(folder, "x.out")
        with open(path, "w") as file:
            file.write(lp.program(nodes, arcs, goal, found[0] if found else None))
        took, _ = timed(["glpsol", "--lp", path, "-o", out], "", runs)
        with open(out) as file:
            answer = file.read()
        assert re.search(r"Status:\s+OPTIMAL", answer)
        found.append(round(float(re.search(r"Objective:\s+goal = (\S+)", answer).group(1))))
        spent += took
    return spent, found


def one(folder, number, parts, runs):
    """The times on one sheet; its worths by all agree."""
    sheet = sheets.sheet(number, parts)
    _, nodes, arcs = network.arcs_of(sheet)
    rows = [f"{parts} {nodes} {len(arcs)}"] + ["%d %d %d %d %d" % arc for arc in arcs]
    simplex, answer = timed([os.path.join(folder, "lemon")], "\n".join(rows) + "\n", runs)
    clear, record = timed([os.path.join(BIN, "clear")], sheet, runs)
    check, passed = timed([os.path.join(BIN, "check")], record, runs)
    dense, found = by_simplex(folder, nodes, arcs, parts, runs)
    assert passed.startswith("passed\n"), (number, parts)
    assert worth_of(passed) == worth_of(answer) == found, (number, parts, worth_of(passed), worth_of(answer), found)
    return {"clear": clear, "check": check, "LEMON": simplex, "glpsol": dense}


def middle(numbers):
    return sorted(numbers)[len(numbers) // 2]


def table(kind, rows):
    """A line for each command: median, longest, ratio of medians to LEMON's, and a bar of the median."""
    most = max(middle([row[name] for row in rows]) for name in rows[0])
    base = middle([row["LEMON"] for row in rows])
    print(f"\n{kind}, {len(rows)} sheets: milliseconds\n")
    print(f"{'command':8} {'median':>8} {'longest':>8} {'to LEMON':>9}")
    for name in rows[0]:
        mid = middle([row[name] for row in rows])
        bar = "#" * max(1, round(WIDTH * mid / most))
        print(f"{name:8} {mid:8.2f} {max(row[name] for row in rows):8.2f} {mid / base:9.2f}  {bar}")


def main():
    count = int(sys.argv[1]) if len(sys.argv) > 1 else 20
    runs = int(sys.argv[2]) if len(sys.argv) > 2 else 5
    with tempfile.TemporaryDirectory() as folder:
        source = os.path.join(HERE, "lemon.cc")
        subprocess.run(["g++", "-O3", "-o", os.path.join(folder, "lemon"), source, "-llemon"], check=True)
        for parts, kind in ((1, "money"), (2, "money then weeks")):
            table(kind, [one(folder, number, parts, runs) for number in range(count)])
    print("\nall worths agree")


main()
