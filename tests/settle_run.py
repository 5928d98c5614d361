#!/usr/bin/env python3
"""The gate's own run of the program `settle`: its files and what it must print.

The net and the first four jobs are document 01's worked example, so the first five lines are the ones that it shows. Its four jobs then come over and over,
past the last job of the first piece that the program reads, and the last job is cut short. Running this file writes the files and the expected output.
"""
import pathlib

from sheets import WORKED, job

FOLDER = pathlib.Path(__file__).resolve().parent.parent / "crates" / "settle"
PIECE_JOBS = 3333  # jobs that the program reads at a time
TURNS = 835

# Document 01's jobs, each with what it prints after the job's number.
JOBS = [
    (job(0, 1, 1), "   0   1   0 X X\n"),  # the gate swings at letter 1
    (job(0, 0, 1), "   0   0   0 1 1\n"),  # nothing changes
    (job(1, 0, 1), "  44   0   0 - -\n"),  # the start is not stable under the old input
    (job(2, 0, 1), "  42   0   0 - -\n"),  # there is no input state 2
]

# A short last piece is a job too, and no job line: row 46.
CUT = (job(0, 0, 1)[:20], "  46   0   0 - -\n")


def main():
    rows = JOBS * TURNS + [CUT]
    assert len(rows) > PIECE_JOBS + len(JOBS) + 1
    (FOLDER / "data" / "net").write_bytes(WORKED)
    (FOLDER / "data" / "jobs").write_bytes(b"".join(data for data, _ in rows))
    lines = ["%4d%s" % (number, text) for number, (_, text) in enumerate(rows, 1)]
    (FOLDER / "stdout").write_text("   0   0   0   1\n" + "".join(lines))


main()
