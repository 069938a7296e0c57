"""The records of a CSV file and the values of their fields, by docs/language.md ("Loading")."""
import calendar
import re

LEAST, MOST, WIDEST = -(1 << 63), (1 << 63) - 1, (1 << 64) - 1
FIRST, LAST = -62167219200, 253402300799
MOMENT = re.compile(r"(\d{4})(-|/)(\d\d)\2(\d\d)(?:[ T](\d\d):(\d\d):(\d\d)(?:(?<=T.{8})(?:\.\d{1,9})?[Zz]?)?)?", re.ASCII)


def records_of(data, separator=b",", quote=None):
    """The records of a file: of each the places where it begins and ends, and its fields, each with its place. Empty lines and a byte order mark at
    the beginning are passed over."""
    at = 3 if data.startswith(b"\xef\xbb\xbf") else 0
    ends = re.compile(b"[" + re.escape(separator) + b"\n\r]|$(?!\n)")
    while at < len(data):
        if data[at:at + 1] in (b"\n", b"\r"):
            at += 1
            continue
        start, fields, more = at, [], True
        while more:
            place = at
            field, at = field_at(data, at, ends, quote)
            fields.append((place, field))
            more = data[at:at + 1] == separator
            at += 1
        yield start, at - 1, fields


def field_at(data, at, ends, quote):
    """The field that begins at a place, and the place of the separator or the end of the line behind it."""
    field = b""
    if quote and data[at:at + 1] == quote:
        at += 1
        while at < len(data):
            if data[at:at + 1] != quote:
                end = data.find(quote, at)
                end = len(data) if end < 0 else end
                field, at = field + data[at:end], end
            elif data[at + 1:at + 2] == quote:
                field, at = field + quote, at + 2
            else:
                at += 1
                break
    end = ends.search(data, at).start()
    return field + data[at:end], end


def is_moment(text):
    """Whether a text is a DATETIME."""
    if re.fullmatch(r"-?[0-9]{1,12}", text):
        return FIRST <= int(text) <= LAST
    found = MOMENT.fullmatch(text)
    if not found:
        return False
    year, month, day = int(found[1]), int(found[3]), int(found[4])
    clock = [int(it) for it in found.groups()[4:7] if it]
    in_month = 1 <= month <= 12 and 1 <= day <= calendar.monthrange(year or 2000, month)[1]
    return in_month and all(it <= most for it, most in zip(clock, (23, 59, 59)))


def is_readable(data, type_name, has_default):
    """Whether a field is a value of a type, or gives its default."""
    if type_name != "STRING":
        data = data.strip(b" \t")
    if not data:
        return has_default
    try:
        text = data.decode()
    except UnicodeDecodeError:
        return False
    if type_name == "STRING":
        return True
    if type_name == "BOOL":
        return text.lower() in ("true", "false", "1", "0")
    if type_name == "DATETIME":
        return is_moment(text)
    if not re.fullmatch(r"[+-]?[0-9]+" if type_name == "INT" else r"\+?[0-9]+", text):
        return False
    low, high = (LEAST, MOST) if type_name == "INT" else (0, WIDEST)
    return low <= int(text) <= high
