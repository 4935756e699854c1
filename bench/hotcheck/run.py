#!/usr/bin/env python3
"""Measures `bsp_office hotcheck`, as ../against_twin.py says, on a file of DOCUMENTS documents, of form 1 or, with `taxed`, of
form 2.

usage: bench/hotcheck/run.py [taxed] [DOCUMENTS [ROUNDS]]     (420000, which is 300 MB of form 1, and 7 by default)
"""
import pathlib
import sys

HERE = pathlib.Path(__file__).resolve().parent
sys.dont_write_bytecode = True
sys.path += [str(HERE), str(HERE.parent)]
from against_twin import run
from make_hot_file import write, write_taxed

if __name__ == "__main__":
    is_taxed = sys.argv[1:2] == ["taxed"]
    numbers = sys.argv[2:] if is_taxed else sys.argv[1:]
    run("hotcheck", HERE / "plain.rs", write_taxed if is_taxed else write, 9_999_999, *map(int, numbers or ["420000"]))
