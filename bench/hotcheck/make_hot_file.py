#!/usr/bin/env python3
"""Writes a valid HOT file of all codes and forms, of offices of 1,000 documents each, with `taxed` one of form 2:
make_hot_file.py DOCUMENTS PATH [taxed]"""
import pathlib
import sys

sys.dont_write_bytecode = True
sys.path += [str(pathlib.Path(__file__).resolve().parents[1] / folder) for folder in ("check", "read_ret")]
from make_file import record
from make_mixed_file import TAXES, document, zoned

# of twenty documents: code, whether a BKS45 stands, the forms, the number of taxes, how many such there are
KINDS = [
    ("TKTT", False, ["CA"], 1, 4),
    ("TKTT", False, ["CC"], 2, 3),
    ("TKTT", False, ["CA", "CC"], 0, 1),
    ("TKTT", True, ["EX"], 3, 1),
    ("TKTT", True, ["CA", "CC", "EX"], 6, 1),
    ("RFND", True, ["CA"], 1, 3),
    ("RFND", True, ["CC"], 6, 1),
    ("RFND", True, ["CA", "CC"], 5, 1),
    ("CANX", False, [], 0, 1),
    ("ADMA", False, ["CA"], 0, 2),
    ("ACMA", False, ["CA"], 0, 2),
]
IN_OFFICE = 1_000


class Sums:
    def __init__(self):
        self.documents = self.cash = self.credit = self.commission = self.tax = 0

    def add(self, other):
        self.documents += other.documents
        self.cash += other.cash
        self.credit += other.credit
        self.commission += other.commission
        self.tax += other.tax

    def text(self, is_taxed):
        money = [self.cash, self.credit, self.commission, self.cash - self.commission - self.tax]
        return f"{self.documents:08d}" + "".join(zoned(each, 15) for each in money + [self.tax] * is_taxed)


class Writer:
    def __init__(self, out, is_taxed):
        self.out, self.is_taxed = out, is_taxed
        self.records = self.transactions = 0

    def record(self, name, fields):
        self.records += 1
        self.out.write(record(f"{name[:3]}{self.records:08d}{name[3:]}{fields}"))

    def item(self, agent, kind, number):
        """Writes the records of a document, and gives what they add up to."""
        code, has_related, forms, taxes, _ = kind
        sums = Sums()
        sums.documents = 1
        self.transactions += 1
        transaction = f"{self.transactions:08d}"
        sign = -1 if code in ("RFND", "ACMA") else 1
        self.record("BKT06", f"{transaction}125")
        self.record("BKS24", f"{transaction}240105{document(1_300_000_000 + number)}{code}{agent}DOE/JANE")
        if code == "CANX":
            return sums
        places = "".join(tax + zoned(sign * (350 + number % 31), 11) for tax in TAXES[:taxes])
        self.record("BKS30", transaction + zoned(sign * (20_000 + number % 977), 11) + places)
        if code in ("TKTT", "RFND"):
            sums.commission = sign * (1_000 + number % 89)
            self.record("BKS39", f"{transaction}00500{zoned(sums.commission, 11)}")
            if self.is_taxed:
                sums.tax = sign * ((1900 * abs(sums.commission) + 5_000) // 10_000)
                self.record("BKS42", f"{transaction}01900{zoned(sums.tax, 11)}")
        if has_related:
            self.record("BKS45", f"{transaction}125{document(1_200_000_000 + number)}")
        for form in forms:
            amount = sign * (1_000 + number % 9_973)
            self.record("BKP84", transaction + form + zoned(amount, 11) + ("VI" if form == "CC" else ""))
            if form == "CA":
                sums.cash = amount
            elif form == "CC":
                sums.credit = amount
        return sums

    def office(self, agent, count):
        """Writes the office of an agent with so many documents, and gives what they add up to."""
        self.record("BOH03", f"{agent}24011EUR")
        codes, office = {}, Sums()
        first = 0
        for place, kind in enumerate(KINDS):
            share = sum(each[4] for each in KINDS[: place + 1])
            last = count * share // 20
            for number in range(first, last):
                codes.setdefault(kind[0], Sums()).add(self.item(agent, kind, number))
            first = last
        for code, sums in codes.items():
            self.record("BOT93", agent + code + sums.text(self.is_taxed))
            office.add(sums)
        self.record("BOT94", agent + office.text(self.is_taxed))
        return office


def write(count, path, is_taxed=False):
    with open(path, "w", buffering=1 << 20, newline="\n") as out:
        writer, file, offices = Writer(out, is_taxed), Sums(), 0
        writer.record("BFH01", f"12524011240215EURPROD00{1 + is_taxed}")
        writer.record("BCH02", "24011240101240115240215")
        for begun in range(0, count, IN_OFFICE):
            offices += 1
            file.add(writer.office(f"{10_000_000 + offices}", min(IN_OFFICE, count - begun)))
        writer.record("BCT95", f"24011{offices:08d}{file.text(is_taxed)}")
        writer.record("BFT99", f"125{writer.records + 1:08d}{file.text(is_taxed)}")


def write_taxed(count, path):
    write(count, path, True)


if __name__ == "__main__":
    write(int(sys.argv[1]), sys.argv[2], sys.argv[3:] == ["taxed"])
