#!/usr/bin/env python3
"""The gate's own run of the program `write_net`: its file and what it must print.

The net is the NOR latch by its second draughtsman, whose lines are neither in the agreed order nor all with the lower end first; what is printed is worked
out by hand, and by writer_model.py. Running this file writes both.
"""
import pathlib

from sheets import NOR_LATCH_AGREED, NOR_LATCH_FROM_0
from writer_model import Record

FOLDER = pathlib.Path(__file__).resolve().parent.parent / "crates" / "write_net"


def main():
    assert Record(NOR_LATCH_FROM_0).agreed() == NOR_LATCH_AGREED
    (FOLDER / "data").mkdir(exist_ok=True)
    (FOLDER / "data" / "net").write_bytes(NOR_LATCH_FROM_0)
    (FOLDER / "stdout").write_bytes(NOR_LATCH_AGREED)


main()
