#!/usr/bin/env python3
"""Measures what the business day costs over a book in a file, by the rates that the plan has: the office sets 300 days one
after another, and each request is sent when the reply to the one before it has come. Prints the median of their
microseconds for each number of rates, and its ratio to the first.

usage: bench/store/day.py [PROGRAM [RATES..]]     (by default the one that is built, 10 and 100,000 rates)
"""
import datetime
import http.client
import os
import pathlib
import socket
import statistics
import subprocess
import sys
import tempfile
import time

TOP = pathlib.Path(__file__).resolve().parents[2]
PROGRAM = os.path.abspath(sys.argv[1]) if len(sys.argv) > 1 else f"{TOP}/crates/bsp_office/out/bsp_office"
RATES = [int(it) for it in sys.argv[2:]] or [10, 100_000]
TOKEN = "officetoken00001"
DAYS = 300
# of one plan text: a body has at most 4 MiB
MOST = 50_000


def plan_texts(rates):
    """Plan texts with so many rates of 999 airlines, each from a day of its own after the days that are set."""
    head = "currency = \"EUR\"\nreview_days = 14\ndocuments_limit = 1000\n"
    codes = [f"{it:03}" for it in range(1, 1000)]
    made = []
    for at in range(rates):
        day = datetime.date(2030, 1, 1) + datetime.timedelta(days=at // len(codes))
        made.append(f"[[rate]]\nairline = \"{codes[at % len(codes)]}\"\nfrom = \"{day}\"\nhundredths = 500\n")
    for at in range(0, rates, MOST):
        airlines = ", ".join(f"\"{it}\"" for it in codes)
        yield f"{head}airline = [{airlines}]\n" + "".join(made[at:at + MOST])


def free_port():
    with socket.socket() as it:
        it.bind(("127.0.0.1", 0))
        return it.getsockname()[1]


def measure(rates, file):
    port = free_port()
    words = ["serve", "--port", str(port), "--token", TOKEN, "--db", file]
    office = subprocess.Popen([PROGRAM, *words], stderr=subprocess.PIPE, text=True)
    if not any("listening" in line for line in office.stderr):
        sys.exit("the program does not listen")
    peer = http.client.HTTPConnection("127.0.0.1", port, timeout=600)

    def ask(path, body):
        begun = time.perf_counter()
        peer.request("POST", path, body, {"Bsp-Token": TOKEN})
        reply = peer.getresponse()
        text = reply.read()
        if reply.status != 200:
            sys.exit(f"{path}: {reply.status} {text[:200]}")
        return (time.perf_counter() - begun) * 1e6

    for text in plan_texts(rates):
        ask("/office/plan", text)
    first = datetime.date(2024, 1, 1)
    times = [ask("/office/day", f'{{"day":"{first + datetime.timedelta(days=it)}"}}') for it in range(DAYS)]
    office.kill()
    office.wait()
    return statistics.median(times)


def main():
    print("| Rates | A business day, us | Ratio |\n|---|---|---|")
    least = None
    for rates in RATES:
        with tempfile.TemporaryDirectory() as folder:
            took = measure(rates, f"{folder}/office.db")
        least = least or took
        print(f"| {rates:,} | {took:,.0f} | {took / least:.2f} |", flush=True)


main()
