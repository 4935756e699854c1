"""Files, devices and words: what the program prints on standard output, its status, and its line on standard error. The longest
inputs take 1.1 GB of memory."""
import os
import pathlib
import resource
import shutil
import subprocess

import pytest

from support import program
from support.callers import OFFICE
from support.compare import expect
from support.records import WIDTH, line
from support.tree import EXAMPLES, SAMPLES, sample

REPORT = """000001 TKTT 12345675 125-1300000001-6 2024-01-05 235.00
records 5 transactions 1 sum 235.00"""
EXCHANGE = """000001 TKTT 12345675 125-1300000011-2 2024-01-05 235.00
000002 TKTT 12345675 125-1300000012-3 2024-01-05 235.00
000003 TKTT 12345675 125-1300000013-4 2024-01-05 520.00
records 14 transactions 3 sum 990.00"""
REFUND = """000001 RFND 12345675 125-1300000002-0 2024-01-05 -235.00
000002 TKTT 12345675 125-1300000001-6 2024-01-05 235.00
records 9 transactions 2 sum 0.00"""
NOTHING = "records 2 transactions 0 sum 0.00"
LONG, NONE = "longer than 1,073,741,824 bytes", "No such file or directory (os error 2)"
UNOPENED = "B03 unable to open database file"
REQUIRED = "error: the following required arguments were not provided:"
SOURCE = "error: --token T or --token-file FILE gives the office's token:"
MINUS = "error: the file of a book or of a token is not called -"
MOST = 1_073_741_824

# the command, the file, the status, the output, and what standard error says of the file, if not its airline and period
REPORTS = [
    ("check", "v1.ret", 0, REPORT, None),
    ("check", "exchange-of-two.ret", 0, EXCHANGE, None),
    ("check", "v0.ret", 0, NOTHING, None),
    ("check", "v0-without-its-last-line-end", 0, NOTHING, None),
    (
        "check",
        "v0-without-its-last-character",
        1,
        "F01 record 2",
        "record 2: it has 135 characters, 1 too few: a field is too short, or spaces at its end are missing",
    ),
    (
        "check",
        "v0-without-its-trailer",
        1,
        "F08 record 2",
        "record 2: the file ends without a trailer: write `Z0000002000000000000000000000{`, and 106 spaces up to 136 characters",
    ),
    (
        "check",
        "v1-cut-in-record-2",
        1,
        "F01 record 2",
        "record 2: it has 135 characters, 1 too few: a field is too short, or spaces at its end are missing",
    ),
    (
        "check",
        "v1-cut-behind-record-1",
        1,
        "F08 record 2",
        "record 2: the file ends without a trailer: write `Z0000002000000000000000000000{`, and 106 spaces up to 136 characters",
    ),
    ("check", "refund-with-cr-lf", 0, REFUND, None),
    (
        "check",
        "empty",
        1,
        "F08 record 1",
        "record 1: the file ends here: it is empty, and the smallest file has a header and a trailer",
    ),
    (
        "check",
        "binary",
        1,
        "F01 record 1",
        "record 1: it has 2 characters, 134 too few: fill it with spaces up to 136 characters",
    ),
    ("hotcheck", "v3.hot", 0, "OK records 4 documents 0 net 0.00", None),
    ("hotcheck", "125-24011.hot", 0, "OK records 19 documents 2 net 175.00", None),
    ("hotcheck", "220-24011.hot", 0, "OK records 17 documents 2 net 30.00", None),
    ("hotcheck", "125-kinds.hot", 0, "OK records 54 documents 8 net 461.39", None),
    ("hotcheck", "125-24011-sale.hot", 0, "OK records 12 documents 1 net 225.00", None),
    ("hotcheck", "125-exchange-of-two.hot", 0, "OK records 25 documents 3 net 497.50", None),
    ("hotcheck", "125-second-ticket.hot", 0, "OK records 75 documents 12 net 1334.50", None),
    ("hotcheck", "taxed.hot", 0, "OK records 13 documents 1 net 223.10", None),
    ("hotcheck", "220-24011-form-2.hot", 0, "OK records 4 documents 0 net 0.00", None),
    ("hotcheck", "220-24012-form-2.hot", 0, "OK records 4 documents 0 net 0.00", None),
    ("hotcheck", "125-24012-refunds.hot", 0, "OK records 48 documents 6 net -226.90", None),
    ("hotcheck", "125-24011-pennies.hot", 0, "OK records 45 documents 6 net 8.90", None),
    ("hotcheck", "125-24011-by-days.hot", 0, "OK records 72 documents 10 net 440.00", None),
    ("hotcheck", "125-24012-from-17.hot", 0, "OK records 19 documents 2 net 448.10", None),
    ("hotcheck", "125-24012-of-nothing.hot", 0, "OK records 13 documents 1 net 225.00", None),
    ("hotcheck", "125-24011-largest.hot", 0, "OK records 19 documents 2 net -2999999999.97", None),
    ("hotcheck", "125-taxed-kinds.hot", 0, "OK records 78 documents 11 net 708.42", None),
    ("hotcheck", "220-taxed-kinds.hot", 0, "OK records 13 documents 1 net 0.00", None),
    ("hotcheck", "v3-without-its-last-line-end", 0, "OK records 4 documents 0 net 0.00", None),
    ("hotcheck", "memo-with-cr-lf", 0, "OK records 11 documents 1 net -50.00", None),
    (
        "hotcheck",
        "short.hot",
        1,
        "H04 record 4",
        "record 4: the file ends before its last record BFT99: after BCT95 comes BFT99: fetch the file again; if it stays so, ask the office",
    ),
    ("hotcheck", "empty", 1, "H04 record 1", "record 1: the file is empty: fetch the file again; if it stays so, ask the office"),
    (
        "hotcheck",
        "binary",
        1,
        "H04 record 1",
        "record 1: this is no HOT file: it begins with `..`, and not with BFH: fetch the file again; if it stays so, ask the office",
    ),
    ("hotcheck", "v1.ret", 1, "H04 record 1", "record 1: this is no HOT file, but a RET file: `check` reads it"),
]

# an edit of sed in a file that passes: the command, the file, the edit, the output, and what standard error says of it
MISTAKES = [
    (
        "check",
        "v1.ret",
        "1s/^1/2/",
        "F02 record 1",
        "record 1, column 1: the identifier `2` is not `1`: a file begins with its header, as `1TSTA2401050930DE000001PROD001` and 106 spaces: put it before this line",
    ),
    ("check", "v1.ret", "1s/PROD/TEST/", "F04 record 1", "record 1, columns 24-27: the production status `TEST` is not `PROD`"),
    (
        "check",
        "v1.ret",
        "1s/240105/240230/",
        "F05 record 1",
        "record 1, columns 6-11: the date `240230` is not a day YYMMDD of the years 2000 to 2099: 5 January 2024 is `240105`",
    ),
    (
        "check",
        "v1.ret",
        "2s/^2/7/",
        "F03 record 2",
        "record 2, column 1: no record after the header begins with `7`: they begin with `2`, `3`, `5`, `8` or `Z`",
    ),
    (
        "check",
        "v1.ret",
        "2s/DOE/D\\tE/",
        "F01 record 2",
        "record 2, column 41: the character 0x09 is outside 0x20 to 0x7e: it has a tab; write spaces in its place",
    ),
    (
        "check",
        "v1.ret",
        "2s/DOE/D\\xc3\\xa9/",
        "F01 record 2",
        "record 2, column 41: the character 0xc3 is outside 0x20 to 0x7e: it has a letter with an accent, or another character of two bytes or more; write letters from A to Z alone",
    ),
    (
        "check",
        "v1.ret",
        "2s/DOE/D\\xc3\\xa9E/",
        "F01 record 2",
        "record 2: it has 137 characters, and not 136: it has a letter with an accent, or another character of two bytes or more; write letters from A to Z alone",
    ),
    (
        "check",
        "v1.ret",
        "1s/^/\\xef\\xbb\\xbf/",
        "F01 record 1",
        "record 1: it has 139 characters, and not 136: it begins with a byte order mark; save it without one",
    ),
    (
        "check",
        "v1.ret",
        "3s/^5000001/5000002/",
        "F03 record 3",
        "record 3, columns 2-7: the transaction number `000002` is not 000001: records 2 rise by one from 000001, and records 3, 5 and 8 have the number of their record 2",
    ),
    (
        "check",
        "v1.ret",
        "3s/{ \\{13\\}/{RA0000000010{/",
        "F05 record 3",
        "record 3, columns 32-33: tax place 2 has `RA` after `RA`: codes rise, and each comes once",
    ),
    (
        "check",
        "v1.ret",
        "4s/^8000001CA/8000001EX/",
        "F03 record 4",
        "record 4, columns 1-9: a record `8` with EX is not allowed here: a form EX needs a record `3` before the record `5` of its transaction, which names the old ticket, as `300000112513000000016` and 115 spaces",
    ),
    (
        "check",
        "v1.ret",
        "5s/^Z0000005/Z0000006/",
        "F06 record 5",
        "record 5, columns 2-8: the number of records, header and trailer included, is 5 and not 6: write `0000005`",
    ),
    (
        "check",
        "v1.ret",
        "5s/{/A/",
        "F07 record 5",
        "record 5, columns 16-30: the sum of all records 8, EX included and refunds below zero, is 235.00 and not 235.01: write `00000000002350{`",
    ),
    (
        "check",
        "v1.ret",
        "5d",
        "F08 record 5",
        "record 5: the file ends without a trailer: write `Z0000005000000100000000002350{`, and 106 spaces up to 136 characters",
    ),
    (
        "check",
        "v1.ret",
        "5p",
        "F09 record 6",
        "record 6: a line follows the trailer: remove it; if it begins with `1`, a second file begins here: send that as a file of its own",
    ),
    (
        "check",
        "two-related.ret",
        "1s/PROD002/PROD001/",
        "F03 record 4",
        "record 4, column 1: a record `3` is not allowed here: a second record 3 needs profile 002, in columns 28-30 of the header",
    ),
    (
        "check",
        "two-related.ret",
        "1s/PROD002/PROD003/",
        "F02 record 1",
        "record 1, columns 28-30: the profile `003` is neither `001` nor `002`",
    ),
    (
        "check",
        "two-related.ret",
        "4s/13000000123/13000000112/",
        "F05 record 4",
        "record 4, columns 8-20: the related document `1251300000011` is not above that of the record 3 before it, by airline and number: exchange the two, or take out the second",
    ),
    (
        "check",
        "two-related.ret",
        "4s/125/124/",
        "F05 record 4",
        "record 4, columns 8-20: the related document `1241300000012` is not above that of the record 3 before it, by airline and number: exchange the two, or take out the second",
    ),
    ("check", "two-related.ret", "4s/125/12 /", "F05 record 4", "record 4, columns 8-10: the airline `12 ` is not 3 digits"),
    (
        "check",
        "two-related.ret",
        "4p",
        "F03 record 5",
        "record 5, column 1: a record `3` is not allowed here: a sale (TKTT) has at most two records 3",
    ),
    (
        "check",
        "two-related.ret",
        "2s/TKTT/RFND/",
        "F03 record 4",
        "record 4, column 1: a record `3` is not allowed here: a refund (RFND) has one record 3",
    ),
    (
        "check",
        "two-related.ret",
        "7d",
        "F03 record 7",
        "record 7, column 1: a record `Z` is not allowed here: the sale before it has a record 3 and no form EX: add the record 8 with EX, or take out record 3",
    ),
    (
        "hotcheck",
        "v3.hot",
        "1s/^BFH/BFT/",
        "H04 record 1",
        "record 1: this is no HOT file: it begins with `BFT00000`, and not with BFH: fetch the file again; if it stays so, ask the office",
    ),
    (
        "hotcheck",
        "v3.hot",
        "2s/^BCH00000002/BCH00000003/",
        "H04 record 2",
        "record 2 (BCH02), columns 4-11: the sequence number is 00000003, and not 00000002: a record is missing before it: fetch the file again; if it stays so, ask the office",
    ),
    (
        "hotcheck",
        "v3.hot",
        "4s/00000000000000{  /00000000000000A  /",
        "H04 record 4",
        "record 4 (BFT99), columns 78-92: the net is 0.01, and the items give 0.00: fetch the file again; if it stays so, ask the office",
    ),
    (
        "hotcheck",
        "taxed.hot",
        "1s/PROD002/PROD001/",
        "H04 record 8",
        "record 8 (BKS42): it is not allowed here: after the commission comes BKS45, or BKP84 with CA or CC: fetch the file again; if it stays so, ask the office",
    ),
    (
        "hotcheck",
        "taxed.hot",
        "1s/PROD002/PROD003/",
        "H04 record 1",
        "record 1 (BFH01), columns 31-37: the production status is not `PROD001` or `PROD002`: fetch the file again; if it stays so, ask the office",
    ),
    (
        "hotcheck",
        "taxed.hot",
        "8s/0842/0839/",
        "H04 record 8",
        "record 8 (BKS39): it is not allowed here: after BKS39 comes BKS42: fetch the file again; if it stays so, ask the office",
    ),
    (
        "hotcheck",
        "taxed.hot",
        "8s/01900/10001/",
        "H04 record 8",
        "record 8 (BKS42), columns 22-26: the rate of tax on commission is not a number in digits up to 10000: 5.00 percent is `00500`: fetch the file again; if it stays so, ask the office",
    ),
    (
        "hotcheck",
        "taxed.hot",
        "8s/19{/19-/",
        "H04 record 8",
        "record 8 (BKS42), columns 27-37: the tax on commission is not ten digits and a last character with digit and sign: 200.00 is `0000002000{`, and -200.00 is `0000002000}`: fetch the file again; if it stays so, ask the office",
    ),
    (
        "hotcheck",
        "taxed.hot",
        "8s/19{/20{/",
        "H04 record 10",
        "record 10 (BOT93), columns 79-93: the net is 223.10, and the items of TKTT give 223.00: fetch the file again; if it stays so, ask the office",
    ),
    (
        "hotcheck",
        "taxed.hot",
        "10s/19{/18{/",
        "H04 record 10",
        "record 10 (BOT93), columns 94-108: the tax on commission is 1.80, and the items of TKTT give 1.90: fetch the file again; if it stays so, ask the office",
    ),
    (
        "hotcheck",
        "taxed.hot",
        "11s/2231{/2250{/",
        "H04 record 11",
        "record 11 (BOT94), columns 75-89: the net is 225.00, and the items give 223.10: fetch the file again; if it stays so, ask the office",
    ),
    (
        "hotcheck",
        "taxed.hot",
        "11s/00000000000019{/               /",
        "H04 record 11",
        "record 11 (BOT94), columns 90-104: the tax on commission is not 14 digits and a last character with digit and sign: 200.00 is `00000000002000{`, and -200.00 is `00000000002000}`: fetch the file again; if it stays so, ask the office",
    ),
    (
        "hotcheck",
        "taxed.hot",
        "12s/19{/18{/",
        "H04 record 12",
        "record 12 (BCT95), columns 95-109: the tax on commission is 1.80, and the items give 1.90: fetch the file again; if it stays so, ask the office",
    ),
    (
        "hotcheck",
        "taxed.hot",
        "13s/19{/18{/",
        "H04 record 13",
        "record 13 (BFT99), columns 93-107: the tax on commission is 1.80, and the items give 1.90: fetch the file again; if it stays so, ask the office",
    ),
    (
        "hotcheck",
        "125-exchange-of-two.hot",
        "19s/13000000123/13000000112/",
        "H04 record 19",
        "record 19 (BKS45): it is not allowed here: after BKS45 comes a later BKS45, or BKP84: fetch the file again; if it stays so, ask the office",
    ),
    (
        "hotcheck",
        "125-exchange-of-two.hot",
        "19s/125/220/",
        "H04 record 19",
        "record 19 (BKS45), columns 22-24: the airline is 220, and that of the file 125: fetch the file again; if it stays so, ask the office",
    ),
    (
        "hotcheck",
        "125-exchange-of-two.hot",
        "25s/ \\{15\\}$/00000000000000{/",
        "H04 record 25",
        "record 25 (BFT99), columns 93-136: the rest of the record has a character that is not a space: fetch the file again; if it stays so, ask the office",
    ),
]

# the status, the output, what standard error says, and the words. It says nothing (none), begins with a line of `error:`, or is
# this line after the name of the program
WORDS = [
    (0, REPORT, "none", ["check", "./v1.ret"]),
    (3, "", f"missing: {NONE}", ["check", "missing"]),
    (3, "", ".: a read failed", ["check", "."]),
    (3, "", "/: a read failed", ["check", "/"]),
    (3, "", f": {NONE}", ["check", ""]),
    (3, "", f"/dev/zero: {LONG}", ["check", "/dev/zero"]),
    (3, "", f"missing: {NONE}", ["hotcheck", "missing"]),
    (3, "", ".: a read failed", ["hotcheck", "."]),
    (3, "", "/: a read failed", ["hotcheck", "/"]),
    (3, "", f": {NONE}", ["hotcheck", ""]),
    (0, "OK version 3 day 2000-01-01 agents 0 items 0 memos 0 periods 0", "none", ["audit", "new.db"]),
    (0, "OK version 3 day 2000-01-01 agents 0 items 0 memos 0 periods 0", "none", ["audit", "./new.db"]),
    (1, "B02\nthe file is empty", "none", ["audit", "empty"]),
    (3, "", f"missing: {UNOPENED}: {NONE}", ["audit", "missing"]),
    (3, "", f"missing/it: {UNOPENED}: {NONE}", ["audit", "missing/it"]),
    (3, "", f".: {UNOPENED}: it is a directory", ["audit", "."]),
    (3, "", f"/dev/zero: {UNOPENED}", ["audit", "/dev/zero"]),
    (3, "", f": {UNOPENED}: {NONE}", ["audit", ""]),
    (3, "", f":memory:: {UNOPENED}: it names no file", ["audit", ":memory:"]),
    (3, "", f"file:new.db: {UNOPENED}: it names no file", ["audit", "file:new.db"]),
    (3, "", "v1.ret: B03 file is not a database that obeys its schema", ["audit", "v1.ret"]),
    (1, "F08 record 1", "none", ["check", "--quiet", "empty"]),
    (1, "H04 record 1", "none", ["hotcheck", "empty", "--quiet"]),
    (3, "", "none", ["check", "--quiet", "missing"]),
    (3, "", "none", ["hotcheck", "--quiet", "--", "."]),
    (0, "bsp_office 1.0.0", "none", ["--version"]),
    (2, "", "none", ["check", "\udcff"]),
    (0, REPORT, "none", ["check", "--", "-x"]),
    (
        1,
        "F08 record 1",
        "--quiet: record 1: the file ends here: it is empty, and the smallest file has a header and a trailer",
        ["check", "--", "--quiet"],
    ),
    (2, "", "error: 'bsp_office' requires a subcommand but one was not provided", []),
    (2, "", "error: unrecognized subcommand 'hot'", ["hot", "v3.hot"]),
    (2, "", "error: unrecognized subcommand 'report'", ["report", "v1.ret"]),
    (2, "", REQUIRED, ["check"]),
    (2, "", REQUIRED, ["hotcheck"]),
    (2, "", REQUIRED, ["audit"]),
    (2, "", "error: unexpected argument '--version' found", ["check", "--version"]),
    (2, "", "error: unexpected argument '-x' found", ["check", "-x"]),
    (2, "", "error: unexpected argument '--unknown' found", ["check", "--unknown"]),
    (2, "", "error: unexpected argument 'v3.hot' found", ["check", "v1.ret", "v3.hot"]),
    (2, "", "error: unexpected argument '--unknown' found", ["hotcheck", "--unknown"]),
    (2, "", "error: unexpected argument 'v1.ret' found", ["hotcheck", "v3.hot", "v1.ret"]),
    (2, "", "error: unexpected argument '--quiet' found", ["audit", "--quiet", "new.db"]),
    (2, "", "error: unexpected argument 'v1.ret' found", ["audit", "new.db", "v1.ret"]),
    (2, "", "error: the argument '--token <T>' cannot be used multiple times", ["run", "--token", OFFICE, "--token", OFFICE]),
    (2, "", "error: unexpected argument '--port' found", ["run", "--token", OFFICE, "--port", "80"]),
    (2, "", f"{SOURCE} neither is there", ["run"]),
    (2, "", "error: the token has 16 to 64 letters and digits", ["run", "--token", "short"]),
    (2, "", f"{SOURCE} both are there", ["run", "--token", OFFICE, "--token-file", "token"]),
    (2, "", MINUS, ["run", "--token-file", "-"]),
    (2, "", MINUS, ["run", "--token", OFFICE, "--db", "-"]),
    (2, "", MINUS, ["audit", "-"]),
    (3, "", ".: it is a directory", ["run", "--token-file", "."]),
    (2, "", REQUIRED, ["judge", "v1.ret"]),
    (2, "", "error: plan FILE tries a text, and plan --of BOOK prints the plan of a book: neither is there", ["plan"]),
    (
        2,
        "",
        "error: plan --of BOOK is alone: it takes no FILE, no --after and no --day",
        ["plan", "--of", "office.db", "plan.toml"],
    ),
    (
        2,
        "",
        "error: plan --of BOOK is alone: it takes no FILE, no --after and no --day",
        ["plan", "--of", "office.db", "--day", "2024-01-05"],
    ),
    (2, "", "error: the file of a book or of a token is not called -", ["plan", "--of", "-"]),
    (2, "", "error: DAY is a day of the calendar, as 2024-01-05", ["plan", "--day", "2024-02-30", "plan.toml"]),
    (
        2,
        "",
        "error: PERIOD is five digits, as 24011",
        [
            "judge",
            "--plan",
            "a",
            "--day",
            "2024-01-05",
            "--agent",
            "12345675",
            "--stock",
            "1300000000-1300000099",
            "--closed",
            "2401",
            "b",
        ],
    ),
    (2, "", "E13 is no code: explain alone lists all", ["explain", "E13"]),
    (3, "", f"missing: {NONE}", ["plan", "missing"]),
    (3, "", ".: a read failed", ["plan", "."]),
    (2, "", REQUIRED, ["serve", "--token", OFFICE]),
    (2, "", "error: unexpected argument '-1' found", ["serve", "--token", OFFICE, "--port", "-1", "--connections", "1"]),
]

MEMO = [
    "BFH000000010112524011240215EURPROD001",
    "BCH000000020224011240101240115240215",
    "BOH00000003037654321324011EUR",
    "BKT000000040600000001125",
    "BKS00000005240000000124010560000000012ACMA76543213RATE OF MARCH",
    "BKS0000000630000000010000000500}",
    "BKP000000078400000001CA0000000500}",
    "BOT000000089376543213ACMA0000000100000000000500}00000000000000{00000000000000{00000000000500}",
    "BOT0000000994765432130000000100000000000500}00000000000000{00000000000000{00000000000500}",
    "BCT000000109524011000000010000000100000000000500}00000000000000{00000000000000{00000000000500}",
    "BFT0000001199125000000110000000100000000000500}00000000000000{00000000000000{00000000000500}",
]


def made_files():
    """The files of the rows, each with its bytes."""
    sale, hot = sample("sale.ret"), sample("no-documents.hot")
    empty = sale[: WIDTH + 1] + line("Z0000002000000000000000000000{").encode()
    files = {"v1.ret": sale, "-x": sale, "v3.hot": hot, "taxed.hot": sample("commission-tax.hot"), "empty": b"", "--quiet": b""}
    return files | {
        "short.hot": b"".join(hot.splitlines(True)[:3]),
        "binary": b"\0\xff\n",
        "v0.ret": empty,
        "v0-without-its-last-line-end": empty[:273],
        "v0-without-its-last-character": empty[:272],
        "v0-without-its-trailer": empty[:137],
        "v1-cut-in-record-2": sale[:272],
        "v1-cut-behind-record-1": sale[:137],
        "refund-with-cr-lf": sample("refund-and-sale.ret").replace(b"\n", b"\r\n"),
        "v3-without-its-last-line-end": hot[:547],
        "memo-with-cr-lf": "".join(line(it, "\r\n") for it in MEMO).encode(),
    }


@pytest.fixture(autouse=True)
def files():
    """The files of the rows, in this folder."""
    for name, text in made_files().items():
        pathlib.Path(name).write_bytes(text)
    for it in *(EXAMPLES / "files").glob("*.hot"), EXAMPLES / "files/two-related.ret", SAMPLES / "exchange-of-two.ret":
        shutil.copy(it, ".")


def is_error(wanted, found):
    """Whether standard error says nothing, begins with this line of `error:`, or is this line after the program's name."""
    text = found.decode()
    if wanted == "none":
        return text == ""
    return text.split("\n")[0] == wanted if wanted.startswith("error:") else text == f"bsp_office: {wanted}\n"


def expect_said(what, wanted, found):
    """Compares a status, an output and what standard error says."""
    status, output, error = wanted
    expect(what, (status, f"{output}\n".encode() if output else b""), (found.status, found.out))
    expect(f"{what}: {found.err!r}, wanted {error!r}", True, is_error(error, found.err))


def line_on(command, file, status, said):
    """What standard error says of a file. Of a HOT file that passes it has the airline and the period."""
    if (command, status) != ("hotcheck", 0):
        return said
    text = pathlib.Path(file).read_bytes().decode()
    return f"airline {text[13:16]}, period {text[16:21]}"


@pytest.mark.parametrize("command, file, status, output, said", REPORTS, ids=[f"{it[0]} {it[1]}" for it in REPORTS])
def test_a_file_is_reported(command, file, status, output, said):
    """Of the file, and of the file as standard input, which is read to its end."""
    text = line_on(command, file, status, said)
    expect_said(file, (status, output, f"{file}: {text}" if text else "none"), program.run(command, file))
    with open(file, "rb") as it:
        ended = subprocess.run([program.path(), command, "-"], stdin=it, capture_output=True, timeout=60)
        left = it.seek(0, os.SEEK_CUR)
    found = program.Ended(ended.returncode, ended.stdout, ended.stderr)
    expect_said("standard input", (status, output, f"standard input: {text}" if text else "none"), found)
    expect("bytes that were not read", 0, pathlib.Path(file).stat().st_size - left)


@pytest.mark.parametrize("command, file, edit, output, said", MISTAKES, ids=[f"{it[1]} {it[2]}" for it in MISTAKES])
def test_a_mistake_is_reported(command, file, edit, output, said):
    text = subprocess.run(["sed", edit, file], capture_output=True, check=True).stdout
    pathlib.Path("mistaken").write_bytes(text)
    expect_said(edit, (1, output, f"mistaken: {said}"), program.run(command, "mistaken"))


@pytest.mark.parametrize(
    "status, output, error, words", WORDS, ids=[" ".join(it[3]).encode("ascii", "replace").decode() for it in WORDS]
)
def test_words(status, output, error, words):
    if "new.db" in "".join(words):
        program.run("run", "--token", OFFICE, "--db", "new.db")
    before = sorted(os.listdir())
    expect_said(" ".join(words), (status, output, error), program.run(*words))
    expect("what it leaves", before, sorted(it for it in os.listdir()))


NO_HOT = "record 1: this is no HOT file: it begins with `........`, and not with BFH: fetch the file again; if it stays so, ask the office"
ZEROS = {
    ("check", MOST): (
        1,
        "F01 record 1",
        f"standard input: record 1: it has {MOST} characters, {MOST - WIDTH} too many: a field is too long",
    ),
    ("check", MOST + 1): (3, "", f"standard input: {LONG}"),
    ("hotcheck", MOST): (1, "H04 record 1", f"standard input: {NO_HOT}"),
    ("hotcheck", MOST + 1): (3, "", f"standard input: {LONG}"),
}


@pytest.mark.parametrize("command, length", ZEROS)
def test_an_input_of_the_most_bytes_and_of_one_more(command, length):
    with subprocess.Popen(["head", "-c", str(length), "/dev/zero"], stdout=subprocess.PIPE) as zeros:
        ended = subprocess.run([program.path(), command, "-"], stdin=zeros.stdout, capture_output=True, timeout=300)
        zeros.stdout.close()
    expect_said(command, ZEROS[command, length], program.Ended(ended.returncode, ended.stdout, ended.stderr))


# the options of `serve`, and why a value is no number of its range
NUMBERS = [
    *(("--port <N>", it, f"{it} is not in 1..=65535") for it in ("0", "65536")),
    ("--port <N>", "http", "invalid digit found in string"),
    ("--port <N>", "", "cannot parse integer from empty string"),
    *(("--connections <K>", it, f"{it} is not in 1..=1000000") for it in ("0", "1000001")),
    ("--connections <K>", "many", "invalid digit found in string"),
]


@pytest.mark.parametrize("option, value, why", NUMBERS)
def test_a_value_that_is_no_number_of_its_range(option, value, why):
    numbers = {"--port": "8080", "--connections": "1", option.split()[0]: value}
    found = program.run("serve", "--token", OFFICE, *(word for it in numbers.items() for word in it))
    expect_said(value, (2, "", f"error: invalid value '{value}' for '{option}': {why}"), found)


UNWRITTEN, UNREAD = "standard output: a write failed", "standard input: a read failed"
# a redirection of the shell, the words, the status, and what standard error says
REDIRECTED = [
    (">&-", "check v1.ret", 3, UNWRITTEN),
    (">/dev/full", "check v1.ret", 3, UNWRITTEN),
    (">/dev/full", "check --quiet v1.ret", 3, "none"),
    (">&-", "hotcheck v3.hot", 3, UNWRITTEN),
    (">/dev/full", "hotcheck v3.hot", 3, UNWRITTEN),
    (">/dev/full", "audit new.db", 3, UNWRITTEN),
    (">&-", "audit empty", 3, UNWRITTEN),
    (">/dev/full", "explain E07", 3, UNWRITTEN),
    (">&-", "plan plan.toml", 3, UNWRITTEN),
    ("<&-", "check -", 3, UNREAD),
    ("<.", "check -", 3, UNREAD),
    (">/dev/full", "--help", 3, "standard output: No space left on device (os error 28)"),
    ("2>/dev/full", "check empty", 1, "none"),
    ("2>/dev/full", "", 2, "none"),
]


@pytest.mark.parametrize("redirection, words, status, error", REDIRECTED, ids=[f"{it[1]} {it[0]}" for it in REDIRECTED])
def test_a_stream_that_is_closed_or_full(redirection, words, status, error):
    shutil.copy(SAMPLES / "plan.toml", ".")
    if "new.db" in words:
        program.run("run", "--token", OFFICE, "--db", "new.db")
    ended = subprocess.run(["bash", "-c", f'"$0" {words} {redirection}', program.path()], capture_output=True, timeout=60)
    expect("the status", status, ended.returncode)
    expect(f"{ended.stderr!r}, wanted {error!r}", True, is_error(error, ended.stderr))


def under_a_limit(*words):
    """How a command ends on 1,000,000,000 bytes of standard input, with half of that as memory."""

    def limit():
        resource.setrlimit(resource.RLIMIT_AS, (500_000 * 1024,) * 2)

    with subprocess.Popen(["head", "-c", "1000000000", "/dev/zero"], stdout=subprocess.PIPE) as zeros:
        ended = subprocess.run(
            [program.path(), *words, "-"], stdin=zeros.stdout, capture_output=True, timeout=300, preexec_fn=limit
        )
        zeros.stdout.close()
    return ended


def test_an_input_for_which_there_is_no_memory():
    ended = under_a_limit("plan")
    assert (ended.returncode, ended.stderr) == (3, b"bsp_office: standard input: out of memory\n")


@pytest.mark.parametrize(
    "words, report", [("check", b"F01 record 1\n"), ("hotcheck", b"H04 record 1\n"), ("hotcheck --list", b"H04 record 1\n")]
)
def test_an_input_that_is_larger_than_memory(words, report):
    ended = under_a_limit(*words.split())
    assert (ended.returncode, ended.stdout) == (1, report)
    assert ended.stderr.startswith(b"bsp_office: standard input: record 1")


COMMANDS = ["", "check", "judge", "plan", "explain", "hotcheck", "audit", "run", "serve"]


@pytest.mark.parametrize("command", COMMANDS)
def test_help(command):
    found = program.run(*command.split(), "--help")
    assert (found.status, found.err) == (0, b"") and b"\nUsage: bsp_office" in b"\n" + found.out
