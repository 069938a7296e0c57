"""Values, moments and JSON text, as docs/language.md has them.

A value is a tuple: ("I", n) an INT, ("U", n) a UINT, ("B", truth), ("S", text), ("D", seconds), ("V", number of a vertex), ("T", name of the tuple
type, fields), ("A", fraction); ("C", kind, content) is the content of a collection, ("R", parts) what `get` of a group gives.
"""
import re

LEAST, MOST, WIDEST = -(1 << 63), (1 << 63) - 1, (1 << 64) - 1
FIRST, LAST = -62167219200, 253402300799
LETTER = {"INT": "I", "UINT": "U", "BOOL": "B", "STRING": "S", "DATETIME": "D"}
DAY = r"(\d{4})(-|/)(\d\d)\2(\d\d)"
FORM = re.compile(DAY + r"(?:( )(\d\d):(\d\d):(\d\d)|(T)(\d\d):(\d\d):(\d\d)(?:\.\d{1,9})?[Zz]?)?", re.ASCII)


class Fault(Exception):
    """A refusal or the fault of a run; its text is the message without the line."""


def number(letter, n):
    """A number of its type, or the fault."""
    low, high = (LEAST, MOST) if letter == "I" else (0, WIDEST)
    if not low <= n <= high:
        raise Fault("number out of range")
    return (letter, n)


def converted(value, type_name):
    """A value where one of the type is wanted: INT and UINT stand for each other."""
    letter = LETTER.get(type_name)
    return number(letter, value[1]) if letter in ("I", "U") else value


def key(value):
    """What values of one type are ordered by."""
    return tuple(key(it) for it in value[2]) if value[0] == "T" else value[1].encode() if value[0] == "S" else value[1]


def is_leap(year):
    return year % 4 == 0 and (year % 100 != 0 or year % 400 == 0)


def days_of(year, month):
    return 29 if month == 2 and is_leap(year) else (31, 28, 31, 30, 31, 30, 31, 31, 30, 31, 30, 31)[month - 1]


def days_before(year):
    """The days from the first of January of the year 0 to that of the year."""
    return 365 * year + (year + 3) // 4 - (year + 99) // 100 + (year + 399) // 400


def seconds_of(year, month, day, hour=0, minute=0, second=0):
    days = days_before(year) - days_before(1970) + sum(days_of(year, it) for it in range(1, month)) + day - 1
    return days * 86400 + hour * 3600 + minute * 60 + second


def parts_of(seconds):
    """Year, month, day, hour, minute and second of a moment: counted up, year by year and month by month."""
    days, rest = divmod(seconds, 86400)
    days += days_before(1970)
    year = days // 366
    while days_before(year + 1) <= days:
        year += 1
    days -= days_before(year)
    month = 1
    while days >= days_of(year, month):
        days -= days_of(year, month)
        month += 1
    return year, month, days + 1, rest // 3600, rest // 60 % 60, rest % 60


def moment_text(seconds):
    return "%04d-%02d-%02d %02d:%02d:%02d" % parts_of(seconds)


def moment_of(text):
    """The seconds of a text of a moment, or None."""
    if re.fullmatch(r"-?[0-9]{1,12}", text):
        return int(text) if FIRST <= int(text) <= LAST else None
    found = FORM.fullmatch(text)
    if not found:
        return None
    it = found.groups()
    year, month, day = int(it[0]), int(it[2]), int(it[3])
    clock = [int(x) for x in (it[5:8] if it[4] else it[9:12] if it[8] else (0, 0, 0))]
    if not 1 <= month <= 12 or not 1 <= day <= days_of(year, month) or clock[0] > 23 or clock[1] > 59 or clock[2] > 59:
        return None
    return seconds_of(year, month, day, *clock)


ESCAPES = {it: f"\\u{it:04x}" for it in range(32)}
ESCAPES |= {ord(it): escape for it, escape in zip('"\\\b\t\n\f\r', ('\\"', "\\\\", "\\b", "\\t", "\\n", "\\f", "\\r"))}


def quoted(text):
    """A text in JSON."""
    return f'"{text.translate(ESCAPES)}"'


def listed(texts):
    return "[" + ",".join(texts) + "]"


def objected(members):
    return "{" + ",".join(f"{quoted(name)}:{it}" for name, it in members) + "}"


def fraction_text(fraction):
    """A fraction with at most six decimals, cut towards zero."""
    whole, rest = divmod(abs(fraction.numerator) * 1000000 // fraction.denominator, 1000000)
    tail = (f".{rest:06d}").rstrip("0").rstrip(".")
    text = f"{whole}{tail}"
    return "-" + text if fraction < 0 and text != "0" else text
