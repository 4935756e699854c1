#!/usr/bin/env python3
"""Writes a plan text of ENTRIES entries: make_plan.py ENTRIES [FIRST_DAY] (at most 500000; the first day is 2000-01-02)

One entry in a thousand is an airline, one in ten a period of three days, up to 12,000, and one in ten a tax on commission on
successive days, up to 30,000; the rest are rates, of each airline on successive days. All begin on the first day.
"""
import datetime
import sys


def day(first, number):
    return (first + datetime.timedelta(days=number)).isoformat()


def lines(entries, first):
    airlines = [f"{100 + number:03d}" for number in range(max(1, entries // 1000))]
    periods, taxes = min(entries // 10, 12_000), min(entries // 10, 30_000)
    yield 'currency = "EUR"\nreview_days = 14\ndocuments_limit = 1000\n'
    yield "airline = [" + ", ".join(f'"{code}"' for code in airlines) + "]\n"
    for number in range(entries - len(airlines) - periods - taxes):
        which, later = number % len(airlines), number // len(airlines)
        yield f'[[rate]]\nairline = "{airlines[which]}"\nfrom = "{day(first, later)}"\nhundredths = {number % 10_001}\n'
    for number in range(periods):
        begin, last, remittance = (day(first, 3 * number + later) for later in (0, 2, 12))
        yield f'[[period]]\ncode = "{number:05d}"\nfirst = "{begin}"\nlast = "{last}"\nremit = "{remittance}"\n'
    for number in range(taxes):
        yield f'[[commission_tax]]\nfrom = "{day(first, number)}"\nhundredths = {number % 10_001}\n'


if __name__ == "__main__":
    start = datetime.date.fromisoformat(sys.argv[2] if len(sys.argv) > 2 else "2000-01-02")
    sys.stdout.writelines(lines(int(sys.argv[1]), start))
