#!/usr/bin/env python3
"""Instructions that the program takes, and that reading, the verdict, settling and batches take, on the nets of nets.py, counted by valgrind.

    python3 bench/run.py [YARDSTICK]

builds the programs, makes the nets and the jobs, and prints three tables. A count is the difference between two runs, so the start of the process and the
test program's own work are not in it. YARDSTICK is another program that reads `net` and `jobs` and writes the same text: the first table then
tells how many times its instructions `settle` takes.
"""
import pathlib
import re
import subprocess
import sys
import tempfile

HERE = pathlib.Path(__file__).resolve().parent
sys.path[:0] = [str(HERE), str(HERE.parent / "tests")]
from case_files import laid_out
from jobs import jobs
from nets import NETS

PROGRAMS = HERE.parent / "target" / "bin"
MOST_JOBS = 9999
COUNTS = (100, 1000, MOST_JOBS)
WITH_JOBS = ("small", "limits", "chain", "chain, other order", "chain, zigzag", "key chain")
LINE = 21


def case(kind, data=b"", numbers=()):
    """A case, and the end of its line as its note."""
    return laid_out(kind, numbers, data) + laid_out(b"#", data=b"\n")


def counted(program, **place):
    """Instructions, and what is written."""
    run = subprocess.run(["valgrind", "--tool=callgrind", "--callgrind-out-file=/dev/null", str(program)], capture_output=True, check=True, **place)
    return int(re.search(rb"Collected : (\d+)", run.stderr).group(1)), run.stdout.decode()


def count(program, cases):
    """Instructions, and the lines written, of a test program. The input is a file, so that one read takes it all."""
    with tempfile.TemporaryFile() as given:
        given.write(cases)
        given.seek(0)
        instructions, text = counted(PROGRAMS / program, stdin=given)
    return instructions, text.splitlines()


def whole(program, sheet, lines):
    """Instructions and text of a program that reads the two files."""
    with tempfile.TemporaryDirectory() as folder:
        (pathlib.Path(folder) / "net").write_bytes(sheet)
        (pathlib.Path(folder) / "jobs").write_bytes(lines)
        return counted(program, cwd=folder)


def programs(yardstick):
    """The program on both files, less its run on two empty ones."""
    print("%-20s %8s %16s %14s" % ("net", "jobs", "instructions", "a job"))
    settle = PROGRAMS / "settle"
    start = whole(settle, b"", b"")[0]
    yardstick_start = whole(yardstick, b"", b"")[0] if yardstick else 0
    for name, net in NETS.items():
        lines = jobs(net, MOST_JOBS) if name in WITH_JOBS else b""
        taken, text = whole(settle, net.sheet(), lines)
        without = whole(settle, net.sheet(), b"")[0]
        many = len(lines) // LINE
        row = "%-20s %8s %16s %14s" % (name, f"{many:,}", f"{taken - start:,}", f"{(taken - without) // many:,}" if many else "")
        if yardstick:
            other, other_text = whole(yardstick, net.sheet(), lines)
            row += "   %.1f times the yardstick%s" % ((taken - start) / (other - yardstick_start), "" if text == other_text else ", and the texts differ")
        print(row)


def verdicts():
    """The test program reads the sheet anew for each case, so a verdict is what its case takes more than a case that only reads."""
    print("\n%-20s %8s %8s %16s %14s" % ("net", "vertices", "edges", "reading", "verdict"))
    for name, net in NETS.items():
        reading, verdict = case(b"N", net.sheet()), case(b"V")
        once, lines = count("verdict_cases", reading + verdict)
        again, _ = count("verdict_cases", reading + reading + verdict)
        twice, _ = count("verdict_cases", reading + verdict + verdict)
        print("%-20s %8d %8d %16s %14s   answers%s" % (name, len(net.vertices), len(net.edges), f"{again - once:,}", f"{twice - again:,}", lines[1].rstrip()))


def batch(kind, lines, h):
    return case(kind, lines, (0, 0, 0, len(lines) // LINE * 2 * h, len(lines) // LINE * 3))


def added(last, before):
    """What a case adds after some others."""
    return count("settle_cases", before + last)[0] - count("settle_cases", before)[0]


def settlings():
    """One settling; a batch of no jobs, which is what a batch prepares; and what each job of a batch adds to that. The program reads its sheet anew
    for each case and fills the buffers, so both costs are taken off: the second is that of a batch that is refused at once."""
    print("\n%-20s %16s %14s" % ("net", "one settling", "no jobs") + "".join("%17s" % f"a job of {n:,}" for n in COUNTS))
    none = batch(b"T", b"", 0)
    filling = added(none, case(b"N") + none)
    for name in WITH_JOBS:
        net, lines = NETS[name], jobs(NETS[name], COUNTS[-1])
        h = len(net.key_nodes())
        sheet = case(b"N", net.sheet())
        _, (_, shown) = count("settle_cases", sheet + batch(b"B", lines[:LINE * COUNTS[0]], h))
        answers = [int(shown.rstrip()[-4 * n:][:4]) for n in range(3 * COUNTS[0], 0, -3)]
        assert not any(answers), "a job is refused"
        one = case(b"S", numbers=[int(lines[4 * i:4 * i + 4]) for i in (1, 2, 3)] + [h, h])
        reading = added(sheet, sheet + none)
        settling = added(one, sheet + none) - reading
        preparing = added(none, sheet + none) - reading - filling
        each = [(added(batch(b"T", lines[:LINE * n], h), sheet) - added(none, sheet)) // n for n in COUNTS]
        print("%-20s %16s %14s" % (name, f"{settling:,}", f"{preparing:,}") + "".join("%17s" % f"{n:,}" for n in each))


if __name__ == "__main__":
    subprocess.run(["tools/build", "settle", "verdict_cases", "settle_cases"], cwd=HERE.parent, stdout=subprocess.DEVNULL, check=True)
    programs(sys.argv[1] if len(sys.argv) > 1 else None)
    verdicts()
    settlings()
