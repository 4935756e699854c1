#!/usr/bin/env python3
"""Writes a valid RET file of all codes and forms: make_mixed_file.py TRANSACTIONS PATH (at most 999999)"""
import pathlib
import sys

sys.dont_write_bytecode = True
sys.path.append(str(pathlib.Path(__file__).resolve().parents[1] / "read_ret"))
from make_file import record, zoned as positive

MINUS = "}JKLMNOPQR"
TAXES = ["AB", "CD", "RA", "RB", "YQ", "YR"]

# code, whether a record 3 stands, the forms, the number of taxes
KINDS = [
    ("TKTT", False, ["CA"], 1),
    ("TKTT", False, ["CC"], 2),
    ("RFND", True, ["CA"], 1),
    ("TKTT", False, ["CA", "CC"], 0),
    ("CANX", False, [], 0),
    ("TKTT", True, ["EX"], 3),
    ("RFND", True, ["CC"], 6),
    ("TKTT", True, ["CA", "EX"], 4),
    ("RFND", True, ["CA", "CC"], 5),
    ("TKTT", True, ["CA", "CC", "EX"], 6),
]


def zoned(value, width):
    text = positive(abs(value), width)
    return text if value >= 0 else text[:-1] + MINUS[-value % 10]


def document(number):
    return f"{number}{number % 7}"


def group(number):
    """The records of a transaction, and the sum of its forms."""
    code, has_related, forms, taxes = KINDS[number % len(KINDS)]
    sign = -1 if code == "RFND" else 1
    sale = f"2{number:06d}{code}12345675125{document(1_300_000_000 + number)}240105DOE/JANE"
    if code == "CANX":
        return [sale], 0
    related = [f"3{number:06d}125{document(1_200_000_000 + number)}"] if has_related else []
    places = "".join(tax + zoned(sign * (350 + number % 31), 11) for tax in TAXES[:taxes])
    fare = zoned(sign * (20_000 + number % 977), 11)
    amounts = f"5{number:06d}{fare}{places:78}00500{zoned(sign * 1000, 11)}"
    paid = [sign * (1_000 * (place + 1) + number % 9_973) for place in range(len(forms))]
    payments = [
        f"8{number:06d}{form}{zoned(amount, 11)}" + ("VI" if form == "CC" else "")
        for form, amount in zip(forms, paid)
    ]
    return [sale, *related, amounts, *payments], sum(paid)


def write(count, path):
    records, total = 2, 0
    with open(path, "w", buffering=1 << 20, newline="\n") as out:
        out.write(record("1TSTA2401050930DE000001PROD001"))
        for number in range(1, count + 1):
            lines, paid = group(number)
            records += len(lines)
            total += paid
            out.write("".join(map(record, lines)))
        out.write(record(f"Z{records:07d}{count:07d}{zoned(total, 15)}"))


if __name__ == "__main__":
    write(min(int(sys.argv[1]), 999_999), sys.argv[2])
