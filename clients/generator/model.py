"""The calls of the static libraries and the structs that cross them, as the crates define them."""
import glob
import os
import re
from dataclasses import dataclass, field

LAYOUT = r"#\[repr\(C\)\]\s*(?:#\[derive\([\w, ]*\)\]\s*)?"  # what comes before a struct that C knows
SIZES = {"u8": 1, "bool": 1, "u16": 2, "u32": 4, "u64": 8, "usize": 8}


@dataclass(frozen=True)
class Number:
    """A number or a bool."""

    name: str
    size: int
    align: int


@dataclass(frozen=True)
class Array:
    """So many of one type; `named` is the constant that says how many, or None where the crate has a literal."""

    of: object
    length: int
    named: str

    @property
    def size(self):
        return self.of.size * self.length

    @property
    def align(self):
        return self.of.align


@dataclass(frozen=True)
class Slice:
    """A pointer and a length; `changed` says whether a call may write there."""

    of: object
    changed: bool


@dataclass(frozen=True)
class Place:
    """A struct that a call changes where it is."""

    of: object


@dataclass(eq=False)
class Struct:
    """A struct with C's layout."""

    name: str
    source: str
    fields: list = field(default_factory=list)

    @property
    def align(self):
        return max(kind.align for _, kind in self.fields)

    @property
    def size(self):
        return up(self.end(len(self.fields)), self.align)

    def end(self, n):
        """Where the first n fields end."""
        at = 0
        for _, kind in self.fields[:n]:
            at = up(at, kind.align) + kind.size
        return at

    def offsets(self):
        return [(name, up(self.end(i), kind.align)) for i, (name, kind) in enumerate(self.fields)]

    def kind_of(self, name):
        return dict(self.fields).get(name)

    @property
    def has_length(self):
        """Whether it holds a length, which has as many bytes as a pointer."""
        return any(kind == NUMBERS["usize"] for _, kind in self.fields)


@dataclass(eq=False)
class Call:
    """A call by value, as a crate exports it."""

    name: str
    library: str
    params: list
    result: object

    @property
    def gives_card(self):
        """Whether the result holds the card that was given."""
        return isinstance(self.result, Struct) and self.result.kind_of("card") is not None

    @property
    def parts(self):
        """The fields of a result that are given one by one, without the card; None where it is given whole."""
        if isinstance(self.result, Struct) and (self.gives_card or self.result.has_length):
            return [(name, kind) for name, kind in self.result.fields if name != "card"]
        return None

    @property
    def returned(self):
        """The field that a call by pointers returns: the refusal, or else what is counted. None where there is none."""
        numbers = [name for name, kind in self.result.fields if isinstance(kind, Number)]
        if "k" in numbers:
            return "k"
        return numbers[0] if self.parts and numbers else None

    @property
    def base(self):
        """The name without that of the library: quick_tick of trigger_quick_tick_in."""
        name = self.name[len(self.library) + 1:]
        return name[: -len("_in")] if name.endswith("_in") else name


NUMBERS = {name: Number(name, size, size) for name, size in SIZES.items()}


def up(at, align):
    return (at + align - 1) // align * align


class Crates:
    """All source files of the crates, and names looked up as a file sees them."""

    def __init__(self, top):
        self.top = top
        self.texts = {}
        self.structs = {}
        for path in sorted(glob.glob(os.path.join(top, "crates/*/src/**/*.rt"), recursive=True)):
            with open(path, encoding="utf-8") as f:
                self.texts[os.path.relpath(path, top)] = f.read()

    def calls(self):
        """Every exported call, in the order of the files."""
        found = []
        pattern = re.compile(r'#\[unsafe\(no_mangle\)\]\s*pub extern "C" fn (\w+)\(([^)]*)\)(?:\s*->\s*(\w+))?')
        for path, text in self.texts.items():
            for name, params, result in pattern.findall(text):
                pairs = [pair.split(":", 1) for pair in params.split(",") if pair.strip()]
                kinds = [(p.strip(), self.kind(kind.strip(), path)) for p, kind in pairs]
                found.append(Call(name, name.split("_")[0], kinds, self.kind(result, path)))
        return found

    def kind(self, text, path):
        """The type that a text means in a file."""
        if text in NUMBERS:
            return NUMBERS[text]
        borrowed = re.fullmatch(r"&(mut )?(.+)", text)
        if borrowed:
            row = re.fullmatch(r"\[(\w+)\]", borrowed[2])
            return Slice(self.kind(row[1], path), bool(borrowed[1])) if row else Place(self.kind(borrowed[2], path))
        row = re.fullmatch(r"\[(.+);\s*(\w+)\]", text)
        if row:
            named = None if row[2].isdigit() else row[2]
            return Array(self.kind(row[1], path), self.constant(row[2], path), named)
        return self.named(text, path)

    def named(self, name, path):
        home, text = self.home(name, path)
        alias = re.search(r"\btype %s = ([^;]+);" % name, text)
        if alias:
            return self.kind(alias[1].strip(), home)
        around = re.search(LAYOUT + r"pub struct %s\(pub (\w+)\);" % name, text)
        if around:
            return self.kind(around[1], home)
        return self.struct(name, home, text)

    def struct(self, name, home, text):
        if (name, home) not in self.structs:
            body = re.search(LAYOUT + r"pub struct %s \{\n(.*?)\n\}" % name, text, re.S)
            if not body:
                raise SystemExit("generate: %s: %s has no layout that C knows" % (home, name))
            made = self.structs[name, home] = Struct(name, home)
            made.fields = [(f, self.kind(kind, home)) for f, kind in re.findall(r"^ *pub (\w+): (.+),$", body[1], re.M)]
        return self.structs[name, home]

    def home(self, name, path):
        """The file that defines a name, and its text."""
        text = self.texts[path]
        if re.search(r"\b(struct|type|const) %s\b" % name, text):
            return path, text
        used = re.search(r"^use ([\w:]+)::(?:%s|\{(?:[\w, ]*\W)?%s\b[\w, ]*\});" % (name, name), text, re.M)
        if not used:
            raise SystemExit("generate: %s: nothing defines %s" % (path, name))
        first, *rest = used[1].split("::")
        crate = path.split("/")[1] if first == "crate" else first
        home = "crates/%s/src/%s.rt" % (crate, "/".join(rest) or "lib")
        return home, self.texts[home]

    def constant(self, name, path):
        if name.isdigit():
            return int(name)
        home, text = self.home(name, path)
        value = re.search(r"\bconst %s: \w+ = (\w+);" % name, text)
        if not value:
            raise SystemExit("generate: %s: %s is no number" % (home, name))
        return self.constant(value[1], home)


def in_place(calls):
    """The calls that others are made of: without those by value that have one in place beside them."""
    names = {call.name for call in calls}
    return [call for call in calls if call.name + "_in" not in names]


def crossing(calls):
    """The structs that the calls take and give, each after those that it holds."""
    found = []

    def visit(kind):
        if isinstance(kind, (Array, Slice, Place)):
            visit(kind.of)
        elif isinstance(kind, Struct) and kind not in found:
            for _, inner in kind.fields:
                visit(inner)
            found.append(kind)

    for call in calls:
        for _, kind in call.params:
            visit(kind)
        visit(call.result)
    return found
