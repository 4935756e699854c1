"""RET and HOT files: amounts as they are written, and records."""

# the characters of a record, and its bytes with the LF at its end
WIDTH, RECORD = 136, 137


def zoned(units, width=11):
    """An amount in minor units as a signed zoned decimal, in its one spelling."""
    digits = f"{abs(units):0{width}}"
    return digits[:-1] + ("{ABCDEFGHI" if units >= 0 else "}JKLMNOPQR")[int(digits[-1])]


def money(units):
    """An amount in minor units as people read it."""
    return f"{'-' if units < 0 else ''}{abs(units) // 100}.{abs(units) % 100:02}"


def minor_units(text):
    """The minor units of an amount as people read it."""
    return int(text.replace(".", ""))


def line(text, end="\n"):
    """A record: the text, filled with spaces, and its line end."""
    return f"{text:{WIDTH}}{end}"


def tax_places(taxes):
    """The places of the taxes of a record 5, each tax a code and an amount."""
    return "".join(f"{code}{zoned(amount)}" for code, amount in taxes).ljust(78)


def header(profile=1):
    """The first record of a RET file."""
    return line(f"1TSTA2401050930DE000001PROD{profile:03}")


def trailer(records, transactions, total):
    """The last record of a RET file of so many records, it included."""
    return line(f"Z{records:07}{transactions:07}{zoned(total, 15)}")


def ret_file(groups, transactions, total, profile=1):
    """The bytes of a RET file of these records."""
    records = [header(profile), *groups]
    return "".join([*records, trailer(len(records) + 1, transactions, total)]).encode()


def numbered(text):
    """The bytes of a HOT file, with the sequence number of each record."""
    records = [text[at : at + RECORD] for at in range(0, len(text), RECORD)]
    return b"".join(it[:3] + b"%08d" % number + it[11:] for number, it in enumerate(records, 1))
