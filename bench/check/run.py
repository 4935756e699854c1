#!/usr/bin/env python3
"""Measures `bsp_office check`, as ../against_twin.py says, on a file of TRANSACTIONS transactions.

usage: bench/check/run.py [TRANSACTIONS [ROUNDS]]     (560000, which is 300 MB, and 7 by default)
"""
import pathlib
import sys

HERE = pathlib.Path(__file__).resolve().parent
sys.dont_write_bytecode = True
sys.path += [str(HERE), str(HERE.parent)]
from against_twin import run
from make_mixed_file import write

if __name__ == "__main__":
    run("check", HERE / "plain.rs", write, 999_999, *map(int, sys.argv[1:] or ["560000"]))
