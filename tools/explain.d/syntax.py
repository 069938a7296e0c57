"""What is said of a script that can't be read: where, what could stand there, and what is most likely meant."""
from advice import ARITHMETIC, COMPARISON, IN_BODY, KINDS, MISSING, STATEMENT, TYPES, advice
from language import Grammar, Reader, Unread, judge_depth, statements_of, tokens_of

EXPRESSION = {"Number", "Text", "TRUE", "FALSE", "Global", "Name", "(", "-", "NOT"}
NAMED = {"Name": "a name", "Number": "a number", "Text": 'a text such as "x"', "Global": "a global accumulator such as @@n",
         "Attached": "an accumulator such as @n"}
GROUPS = ((STATEMENT, "a statement"), (EXPRESSION, "an expression"), (ARITHMETIC | COMPARISON, "an operator"), (ARITHMETIC, "an operator"),
          (COMPARISON, "a comparison"), (KINDS, "an accumulator"), (IN_BODY | {"Name"}, "a statement of the body"), (TYPES, "a type"))
ODD_BYTES = {
    b"&": "Truths are joined by the word AND.", b"|": "Truths are joined by the word OR.", b"!": "NOT is a word; `!=` compares.",
    b"\\": "In a text a backslash begins one of \\\" \\\\ \\n \\t \\r; a backslash itself is \\\\.",
    b"`": "Names are written without quotes, texts in double ones.", b"?": "There is no ? operator: IF c THEN .. ELSE .. END.",
    b"@": "An accumulator is @name at a vertex, or @@name for the query.",
    b"^": "There is no ^.", b"~": "There is no ~.",
}
MARK = "There is a byte order mark here: save the script as UTF-8 without one."
SAID = {
    "not UTF-8": "The file isn't UTF-8 there: `iconv -f LATIN1 -t UTF-8 old.gsql >new.gsql` makes it so, if it is Latin-1.",
    "open comment": "This /* has no */ after it.",
    "open text": "This quote has no second one; the mistake may be further down, where the text should have ended.",
    "number too big": "Numbers go up to 18446744073709551615: keep what is larger as a text.",
    "nested too deep": "More than 64 brackets, IFs and loops are open here.",
}


def read(text):
    """The tokens and the trees of a script, and None; or None, None and what is said of it."""
    try:
        tokens = tokens_of(text.data)
        judge_depth(text.data, tokens)
    except Unread as bad:
        return None, None, unread(text, bad)
    reader = Reader(Grammar(), tokens)
    found, at = statements_of(reader)
    return tokens, found, None if at is None else unparsed(text, reader, found, at)


def unread(text, bad):
    """What is said of bytes that are no tokens."""
    said = str(bad).split(": ", 1)[1]
    hint = next((it for name, it in SAID.items() if said.startswith(name)), None)
    if hint is None:
        byte = text.data[bad.at:bad.at + 1]
        hint = MARK if text.data[bad.at:bad.at + 3] == b"\xef\xbb\xbf" else ODD_BYTES.get(
            byte, "Typographic quotes and other such characters are allowed within texts alone." if byte >= b"\x80" else "No token begins so.")
    return [f"{text.place(bad.at)}: {said}", "", *text.shown(bad.at, bad.at + 1), hint]


def unparsed(text, reader, found, at):
    """What is said where the statement that begins at a token can't be read."""
    place, wanted, tokens = reader.furthest, set(reader.wanted), reader.tokens
    upper = [it[1].decode().upper() for it in tokens]
    begun = at if place > at or not found else found[-1].start
    hint = advice(tokens, upper, place, begun, wanted)
    if hint == MISSING or place == len(tokens):
        last = tokens[place - 1]
        start, end = last[2] + len(last[1]), last[2] + len(last[1]) + 1
    else:
        start, end = tokens[place][2], tokens[place][2] + len(tokens[place][1])
    lines = [f"{text.place(start)}: syntax error in statement {len(found) + 1}, which begins on line {text.line(tokens[begun][2])}", "",
             *text.shown(start, end), f"Expected here: {listed(wanted)}."]
    return lines + [hint] if hint else lines


def listed(wanted):
    """What could stand somewhere, in words."""
    left, said = set(wanted), []
    for group, name in GROUPS:
        if group <= wanted and group & left:
            said.append(name)
            left -= group
    closers = [it for it in (";", ")", "]", "}", "END", ",") if it in left]
    words = [NAMED.get(it, f"`{it}`") for it in closers + sorted(left - set(closers), key=lambda it: (it in NAMED, it))]
    found = words[:3] + said + words[3:] if closers else said + words
    found = list(dict.fromkeys(found))
    if len(found) > 9:
        found = found[:8] + ["others"]
    return found[0] if len(found) == 1 else ", ".join(found[:-1]) + " or " + found[-1]
