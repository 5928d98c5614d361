#!/usr/bin/env python3
"""The gate's own run of the program `read_gates`: its file and what it must print.

The gates are a NOR latch and an inverter of its Q; what is printed is worked out by hand from request C-14, and by gates_model.py. Running this file writes
both.
"""
import pathlib

import gates_model

FOLDER = pathlib.Path(__file__).resolve().parent.parent / "crates" / "read_gates"

# Q bar = (S + Q)', Q = (R + Q bar)', then Q'.
GATES = b"""\
   6   3   2   0   1
   7   3 103  11 104
   7   3 104  12 103
   7   1 105 104   0
"""

# Vertices: the rails, three outputs, the inner vertices of both NORs. Edges: by gate, p before n, by symbol, the end nearer to vertex 2 first.
NET = b"""\
   1   7  10   2   1
   2   1   0   0   0
   2   2   0   1   0
   2   3   2   0   0
   2   4   2   0   0
   2   5   2   0   0
   2   6   1   0   0
   2   7   1   0   0
   3   2   6   1  11
   3   6   3   1 104
   3   3   1   0  11
   3   3   1   0 104
   3   2   7   1  12
   3   7   4   1 103
   3   4   1   0  12
   3   4   1   0 103
   3   2   5   1 104
   3   5   1   0 104
"""


def main():
    assert gates_model.read(GATES) == (0, 0, NET)
    (FOLDER / "data").mkdir(exist_ok=True)
    (FOLDER / "data" / "gates").write_bytes(GATES)
    (FOLDER / "stdout").write_bytes(NET)


main()
