#!/usr/bin/env python3
"""The second check of examples/: that each net is the one that the other tests use, and that each line of `expected` is what the models of the
definitions give. The lines are worked out by hand in the folders' READMEs; none is taken from the programs, which examples/run compares. The lines
and jobs that a README explains must be all of those in the files.
"""
import pathlib
import re
import sys

import gates_model
import sheets
import settle_model
from writer_model import Record

EXAMPLES = pathlib.Path(__file__).parent.parent / "examples"
NETS = {
    "worked": sheets.WORKED,
    "nor-latch": sheets.NOR_LATCH,
    "three-nands": sheets.THREE_NANDS,
    "d-flip-flop": sheets.FLIP_FLOP,
    "tally": sheets.TALLY,
}
# The nets of the folders that have several drawings of one net.
DRAWINGS = {"two-drawings": {"left": sheets.NOR_LATCH, "right": sheets.NOR_LATCH_FROM_0}}
# The folder of nets drawn as gates, and the one of them that is a net of the other tests.
GATES = "gates"
GATE_LATCH = "gates/nor-latch"


def text(sheet, jobs):
    """What is printed for a well formed net and whole job lines. The model has no verdict; that of these nets is the report's."""
    net = settle_model.Net(sheet)
    h = len(net.keys)
    lines = ["%4d%4d%4d%4d" % (0, 0, 0, h)]
    for n, job in enumerate(jobs.decode().splitlines(), 1):
        _, old, new, start, _ = [int(job[i:i + 4]) for i in range(0, 20, 4)]
        number, first, second, r, t = net.job(old, new, start, True)
        if number:
            r = t = "-" * h
        lines.append("%4d%4d%4d%4d %s %s" % (n, number, first, second, r, t))
    return "".join(line + "\n" for line in lines).encode()


def read(folder, name):
    return (EXAMPLES / folder / name).read_bytes()


def explained(folder):
    """The lines and the jobs in the table of a README, as the files would have them."""
    rows = re.findall(r"^\| `([^`]*)` \| (?:`([^`]*)`)?", read(folder, "README.md").decode(), re.MULTILINE)
    lines = "".join(line + "\n" for line, _ in rows)
    jobs = b"".join(sheets.line(*map(int, job.split())) for _, job in rows if job)
    return lines.encode(), jobs


def agrees(folder):
    jobs, expected = read(folder, "jobs"), read(folder, "expected")
    return read(folder, "net") == NETS[folder] and explained(folder) == (expected, jobs) and expected == text(NETS[folder], jobs)


def are_one(folder):
    """Is each drawing's sheet in the agreed order the one that is expected?"""
    nets, expected = DRAWINGS[folder], read(folder, "expected")
    drawn = {f.name: (f / "net").read_bytes() for f in (EXAMPLES / folder).iterdir() if f.is_dir()}
    return drawn == nets and explained(folder) == (expected, b"") and all(Record(net).agreed() == expected for net in nets.values())


def are_gates(folder):
    """Is the net the one that the gates make, and does the README explain the net, or the jobs on it?"""
    net = read(folder, "net")
    if gates_model.read(read(folder, "gates")) != (0, 0, net):
        return False
    if folder == GATE_LATCH:
        return net == sheets.NOR_LATCH and explained(folder) == (net, b"")
    jobs, expected = read(folder, "jobs"), read(folder, "expected")
    return explained(folder) == (expected, jobs) and expected == text(net, jobs)


def agrees_with_model(folder):
    if folder.startswith(GATES + "/"):
        return are_gates(folder)
    return agrees(folder) if folder in NETS else folder in DRAWINGS and are_one(folder)


def main():
    folders = sorted(f.name for f in EXAMPLES.iterdir() if f.is_dir() and f.name != GATES)
    folders += sorted(f"{GATES}/{f.name}" for f in (EXAMPLES / GATES).iterdir() if f.is_dir())
    answers = [agrees_with_model(folder) for folder in folders]
    for folder, answer in zip(folders, answers):
        print(folder + (": as in the model" if answer else ": DIFFERS"))
    sys.exit(0 if all(answers) else 1)


main()
