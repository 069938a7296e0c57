"""Places in a text, as people are shown them."""
MOST_WIDTH = 160


class Text:
    """A file's bytes, with the name by which people know it."""

    def __init__(self, name, data):
        self.name, self.data = name, data

    def line(self, at):
        """The number of a byte's line, from 1."""
        return self.data.count(b"\n", 0, at) + 1

    def place(self, at):
        """`file:line:column`; columns are characters, from 1."""
        before = self.data[self.data.rfind(b"\n", 0, at) + 1:at]
        return f"{self.name}:{self.line(at)}:{len(before.decode(errors='replace')) + 1}"

    def shown(self, start, end):
        """The line of a place with marks under the bytes from `start` to before `end`, as far as they stand on it."""
        first = self.data.rfind(b"\n", 0, start) + 1
        while end < len(self.data) and self.data[end] & 0xC0 == 0x80:
            end += 1
        last = self.data.find(b"\n", start)
        last = len(self.data) if last < 0 else last
        head = self.data[first:start].decode(errors="replace")
        marked = self.data[start:min(end, last)].decode(errors="replace").rstrip()
        rest = self.data[min(end, last):last].decode(errors="replace").rstrip()
        marked = marked or " "
        cut = max(0, len(head) + min(len(marked), 40) - MOST_WIDTH)
        line = (head + marked + rest)[cut:cut + MOST_WIDTH]
        gap = "".join("\t" if it == "\t" else " " for it in head[cut:])
        number = f"{self.line(start):5} | "
        return [number + line, " " * (len(number) - 2) + "| " + gap + "^" * max(1, min(len(marked), MOST_WIDTH - len(gap)))]
