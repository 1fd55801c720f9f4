"""Times the program `rounds`: seconds a round of one of its works."""

import os
import subprocess
import sys
import time

TOP = os.path.dirname(os.path.dirname(os.path.abspath(__file__)))
FOLDER = os.path.join(TOP, "crates", "rounds")
PROGRAM = os.path.join(FOLDER, "out", "rounds")
RUNS = 7
MOST_RATIO = 2


def build():
    """Builds the program, if it isn't there."""
    if not os.path.exists(PROGRAM):
        with open(os.path.join(FOLDER, "args"), encoding="ascii") as file:
            words = file.read().split()
        subprocess.run(["rt", "run", "--", *words], cwd=FOLDER, stdout=subprocess.DEVNULL, check=True)


def checksum(work, what, rounds):
    """What so many rounds print."""
    return int(subprocess.run([PROGRAM, work, str(what), str(rounds)], capture_output=True, check=True).stdout)


def seconds(work, what, rounds, runs=RUNS):
    """The least time of so many runs of so many rounds."""
    least = None
    for _ in range(runs):
        begun = time.perf_counter()
        run = subprocess.run([PROGRAM, work, str(what), str(rounds)], stdout=subprocess.DEVNULL)
        taken = time.perf_counter() - begun
        if run.returncode != 0:
            sys.exit(f"rounds {work} {what} {rounds}: status {run.returncode}")
        least = taken if least is None else min(least, taken)
    return least


def a_round(work, what, rounds, runs=RUNS):
    """Seconds a round, without what is made before the first one."""
    return max(seconds(work, what, rounds, runs) - seconds(work, what, 0, runs), 1e-9) / rounds


def compare(step, things, few, many, works):
    """Prints what a round of each work costs with few things and with many. Exits 1 where the many make it
    cost more than twice as much."""
    build()
    fair = True
    print(f"| {step} | ns with {few:,} {things} | ns with {many:,} | ratio |")
    print("|---|---|---|---|")
    for work, name, rounds in works:
        short, long = a_round(work, few, rounds), a_round(work, many, rounds)
        fair = fair and long / short <= MOST_RATIO
        print(f"| {name} | {short * 1e9:,.0f} | {long * 1e9:,.0f} | {long / short:.2f} |")
    print(f"each ratio is to be at most {MOST_RATIO}")
    sys.exit(0 if fair else 1)
