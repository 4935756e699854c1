#!/usr/bin/env python3
"""Writes a RET file of about MEGABYTES of single-form sales: make_file.py MEGABYTES PATH"""
import sys

LAST = "{ABCDEFGHI"


def zoned(value, width):
    return f"{value // 10:0{width - 1}d}" + LAST[value % 10]


def record(text):
    return text.ljust(136) + "\n"


def main():
    size, path = int(sys.argv[1]) * 1_000_000, sys.argv[2]
    count = min(size // (3 * 137), 999_999)
    total = 0
    with open(path, "w", buffering=1 << 20) as out:
        out.write(record("1TSTA2401050930DE000001PROD001"))
        for number in range(1, count + 1):
            document = 1_300_000_000 + number
            fare = 20000 + number % 977
            tax = 3500 + number % 31
            paid = fare + tax
            total += paid
            out.write(record(f"2{number:06d}TKTT12345675125{document}{document % 7}240105DOE/JANE"))
            places = "RA" + zoned(tax, 11) + " " * 65
            out.write(record(f"5{number:06d}{zoned(fare, 11)}{places}00500{zoned(1000, 11)}"))
            out.write(record(f"8{number:06d}CA{zoned(paid, 11)}"))
        out.write(record(f"Z{3 * count + 2:07d}{count:07d}{zoned(total, 15)}"))


if __name__ == "__main__":
    main()
