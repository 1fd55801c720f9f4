#!/usr/bin/env python3
"""Runs the built program once for each way in which a run can end, on lines that it refuses, and on each plain example,
and compares its exit number, its line on standard error and what it wrote. Standard input may be a folder, which can't be read, and standard output the device
that is always full.

Run at the top of the repository, after the gate has built the program. `Full` isn't here: it takes 2^32 messages.
"""
import glob, os, resource, subprocess, sys, tempfile

PROGRAM = "crates/taurus/out/taurus"
PLAIN = b"plain\ndo m1 1 begin\n"
MANY = b"plain\ndo m1 1 begin\n" + b"".join(b"do m1 1 put 1 %08x %s\n" % (n, b"76" * 512) for n in range(40_000))
MEMORY = 48 << 20

# what is shown, the words, the input (None: a folder), whether the output is full, the memory in bytes (None: all
# there is), and then the exit number, the line on standard error, and a front of the output (None: any)
RUNS = [
    ("done", [b"replay"], PLAIN, False, None, 0, b"", b"ok\nm1 1 Begun 1.1\n"),
    ("done, without a last line feed", [b"replay"], PLAIN[:-1], False, None, 0, b"", b"ok\nm1 1 Begun 1.1\n"),
    ("no words", [], PLAIN, False, None, 2, b"taurus: words\n", b""),
    ("a further word", [b"replay", b"now"], PLAIN, False, None, 2, b"taurus: words\n", b""),
    ("a word that isn't text", [b"\xff"], PLAIN, False, None, 2, b"taurus: words\n", b""),
    ("a bad line", [b"replay"], PLAIN + b"do m1 1 fly\n", False, None, 3, b"taurus: bad schedule at line 3\n", b"ok\nm1 1 Begun 1.1\n"),
    ("a bad first line", [b"replay"], b"do m1 1 begin\n", False, None, 3, b"taurus: bad schedule at line 1\n", b""),
    ("input that can't be read", [b"replay"], None, False, None, 4, b"taurus: read fault\n", b""),
    ("output that is full", [b"replay"], PLAIN, True, None, 5, b"taurus: write fault\n", None),
    ("a line that is too long", [b"replay"], b"plain\n" + b"x" * 9000, False, None, 3, b"taurus: bad schedule at line 2\n", b"ok\n"),
    ("little memory", [b"replay"], MANY, False, MEMORY, 6, b"taurus: no memory\n", None),
]

# Lines that a plain schedule can't have after these two, or in place of the first: each ends the run there.
BEGUN = b"plain\ndo m1 1 begin\n"
BAD_LINES = [
    b"", b"plain", b"plain ", b"deliver 0", b"deliver 1", b"deliver 4294967296", b"do m1 1 begin ", b"do m1  1 begin", b"do m2 1 begin",
    b"do m1 1 abort", b"do m1 1 get 01 6b", b"do m1 1 get 65536 6b", b"do m1 1 get 1 -", b"do m1 1 get 1 6B", b"do m1 1 get 1 6",
    b"do m1 1 put 1 6b", b"do m1 1 put 1 6b 76 76", b"do m1 1 put 1 6b ",
]
RUNS += [(f"the line {line!r}", [b"replay"], BEGUN + line + end, False, None, 3, b"taurus: bad schedule at line 3\n", b"ok\nm1 1 Begun 1.1\n")
         for line in BAD_LINES for end in (b"\n", b"") if line or end]
RUNS += [(f"the first line {line!r}", [b"replay"], line + b"\n", False, None, 3, b"taurus: bad schedule at line 1\n", b"")
         for line in BAD_LINES if line != b"plain"]
RUNS.append(("no line", [b"replay"], b"", False, None, 0, b"", b""))

# Schedules with their transcripts.
for path in sorted(glob.glob("examples/*.schedule") + glob.glob("examples/plain/*.schedule")):
    with open(path, "rb") as schedule, open(path.removesuffix("schedule") + "transcript", "rb") as transcript:
        RUNS.append((path, [b"replay"], schedule.read(), False, None, 0, b"", transcript.read()))


def limit(memory):
    def set_limit():
        if memory is not None:
            resource.setrlimit(resource.RLIMIT_AS, (memory, memory))
    return set_limit


def run(words, given, full, memory, error):
    """The exit number, what was written on standard error, and the output."""
    with tempfile.TemporaryFile() as written:
        if given is None:
            source = os.open(".", os.O_RDONLY)
        else:
            held = tempfile.TemporaryFile()
            held.write(given)
            held.seek(0)
            source = held.fileno()
        sink = os.open("/dev/full", os.O_WRONLY) if full else written.fileno()
        end = subprocess.run([os.path.abspath(PROGRAM).encode()] + words, stdin=source, stdout=sink, stderr=error, preexec_fn=limit(memory), timeout=60)
        written.seek(0)
        return end.returncode, end.stderr, written.read()


def main():
    if not os.path.isfile(PROGRAM):
        print(f"statuses: no {PROGRAM}; run rt ci first")
        return 1
    wrong = 0
    for name, words, given, full, memory, number, line, front in RUNS:
        got = run(words, given, full, memory, subprocess.PIPE)
        if got[:2] != (number, line) or (front is not None and not (got[2] == front)):
            wrong += 1
            print(f"statuses: {name}: exit {got[0]}, {got[1]!r}, {got[2][:60]!r}")
    # The number is the same where standard error can't be written.
    closed = os.open("/dev/full", os.O_WRONLY)
    if run([], PLAIN, False, None, closed)[0] != 2:
        wrong += 1
        print("statuses: another exit number where standard error is full")
    print(f"statuses: {len(RUNS) + 1 - wrong} of {len(RUNS) + 1}")
    return 1 if wrong else 0


if __name__ == "__main__":
    sys.exit(main())
