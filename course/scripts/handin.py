"""Files as students hand them in: the lines that are meant, and what had to be mended."""
import codecs
import collections
import re

# The lines keep their numbers: what is left out is an empty line.
HandIn = collections.namedtuple("HandIn", "wiring name exercise mended")

ANSWER = re.compile(r":A( \d+)?|:N-\d+|T -|T [0-9a-f]{4} [0-9a-f]{4} [0-9a-f]{4} \d+")
TICK = re.compile(r"T \d .*")
QUESTION = re.compile(r"(never|always|after|given) .*|dead")


class Notes:
    """What was mended: kinds, each once, and those that are counted."""

    def __init__(self):
        self.found = collections.Counter()

    def add(self, kind):
        self.found[kind] += 1

    def words(self):
        return [
            kind if kind not in ("tick", "question") else "%d %s%s left in" % (n, kind, "s" * (n > 1))
            for kind, n in self.found.items()
        ]


def decoded(data, notes):
    if data.startswith((codecs.BOM_UTF16_LE, codecs.BOM_UTF16_BE)) or b"\0" in data[:2]:
        notes.add("UTF-16")
        order = (
            "utf-16"
            if data.startswith((codecs.BOM_UTF16_LE, codecs.BOM_UTF16_BE))
            else "utf-16-be"
            if data[0] == 0
            else "utf-16-le"
        )
        return data.decode(order, "replace")
    if data.startswith(codecs.BOM_UTF8):
        notes.add("byte order mark")
        data = data[len(codecs.BOM_UTF8) :]
    return data.decode("utf-8", "replace")


def with_line_ends(text, notes):
    if "\r" in text:
        notes.add("CR LF" if "\r\n" in text else "CR")
        text = text.replace("\r\n", "\n").replace("\r", "\n")
    if text and not text.endswith("\n"):
        notes.add("no last line end")
        text += "\n"
    return text


def line_of(row, notes):
    """One row of a file as a line of the wiring, empty where it is none."""
    line = row.replace("\u00a0", " ").expandtabs(1)
    if line.startswith("> ") or ANSWER.fullmatch(line.strip()):
        notes.add("answers left in")
        line = line[2:] if line.startswith("> ") else ""
    plain = re.sub(r"(^|\s+)#.*$", "", line)
    if plain != line:
        notes.add("remarks")
    elif plain != plain.rstrip():
        notes.add("blanks at line ends")
    if plain.lstrip() != plain:
        notes.add("blanks at line beginnings")
    plain = plain.strip()
    for kind, form in (("tick", TICK), ("question", QUESTION)):
        if form.fullmatch(plain):
            notes.add(kind)
            return ""
    return plain


def read(data):
    """A hand-in of a file's bytes: lines, or a result that the page has copied."""
    notes = Notes()
    text = with_line_ends(decoded(data, notes), notes)
    rows = text.split("\n")[:-1]
    name = number = None
    if text.startswith("Exercise: ") and "Lines:" in rows:
        notes.add("a result of the page")
        name, number = re.search(r"^Name: *(.+)$", text, re.M), re.match(r"Exercise: (\d+) ", text)
        at = rows.index("Lines:") + 1
        rows = [""] * at + rows[at:]
    elif "" in rows:
        notes.add("empty lines")
    lines = [line_of(row, notes) for row in rows]
    wiring = "".join(line + "\n" for line in lines)
    return HandIn(wiring, name.group(1).strip() if name else "", int(number.group(1)) if number else 0, notes.words())
