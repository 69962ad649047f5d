"""Rust: the structs, and each call with Rust's own types, over the calls by value and over those by pointers."""
import textwrap

from model import Array, Number, Place, Slice, Struct, crossing, in_place

WIDTH = 100
LENGTHS = {"MOST": "RACK"}
HIDDEN = ("Card", "Memory")  # their fields are read by functions, and changed by calls alone
CONSTANTS = [("CELLS", "How many cells a card has room for; it has sixteen or thirty-two."),
             ("CONNECTORS", "How many connectors a card has."),
             ("RACK", "The most cards of a rack.")]

HEAD = """\
//! Written by clients/generate from the crates: do not edit. The structs that cross the interface of
//! the static libraries, and `calls`, their calls with Rust's types: by value, which is x86-64's C,
//! or by pointers, which are the same on every processor. The feature `pointers` takes these on
//! x86-64 too.
use core::mem::{offset_of, size_of, MaybeUninit};
"""

LAYOUT = """\
// The size of a struct, and where each of its fields lies.
macro_rules! layout {
    ($type:ty: $size:literal, $($field:ident $at:literal),+) => {
        const _: () = assert!(size_of::<$type>() == $size);
        $(const _: () = assert!(offset_of!($type, $field) == $at);)+
    };
}
"""

BY_VALUE = 'all(target_arch = "x86_64", not(windows), not(feature = "pointers"))'

SAFE = ("Every call takes every value. What the caller sees to is that each slice is valid and that none that is "
        "written overlaps another, and so references are. %s")


def name_of(kind):
    if isinstance(kind, Array):
        length = LENGTHS.get(kind.named, kind.named) or kind.length
        return "[%s; %s]" % (name_of(kind.of), length)
    if isinstance(kind, Slice):
        return "&%s[%s]" % ("mut " if kind.changed else "", name_of(kind.of))
    return kind.name


def documented(text, indent=""):
    return ["%s/// %s" % (indent, line) for line in textwrap.wrap(text, WIDTH - 4 - len(indent))] if text else []


def struct_of(struct, docs, derived):
    text, fields = docs.get(struct.name, ("", {}))
    lines = documented(text) + ["// %s" % struct.source, "#[repr(C)]"]
    lines += ["#[derive(%s)]" % ", ".join(derived)] if derived else []
    lines.append("pub struct %s {" % struct.name)
    public = "pub(crate)" if struct.name in HIDDEN else "pub"
    for name, kind in struct.fields:
        lines += documented(fields.get(name, ""), "    ") + ["    %s %s: %s," % (public, name, name_of(kind))]
    return "\n".join(lines + ["}"])


def layout_of(struct):
    words = ["%s\0%d" % row for row in struct.offsets()]
    text = "layout!(%s:\0%d, %s);" % (struct.name, struct.size, ", ".join(words))
    return "\n    ".join(textwrap.wrap(text, WIDTH - 4)).replace("\0", " ")


def listed(start, words, end, inside=4):
    """A list in parentheses: on one line, or a line for each word. `inside` is how far the text is moved in."""
    line = start + ", ".join(words) + end
    if len(line) <= WIDTH - inside:
        return [line]
    return [start] + ["    %s," % word for word in words] + [end]


def unsafe(start, called, words, end):
    """A call in an unsafe block, with what comes before and after the block."""
    line = "%sunsafe { %s(%s) }%s" % (start, called, ", ".join(words), end)
    if len(line) <= WIDTH - 8:
        return [line]
    return [start + "unsafe {"] + ["    " + row for row in listed(called + "(", words, ")", 12)] + ["}" + end]


def indented(lines, by=4):
    return "\n".join((" " * by + line if line else "") for text in lines for line in text.split("\n"))


# ---- a full tick
# By value a tick costs less than in place where its result is written in the place of the card that
# was given: so the crate keeps a card with room for an answer after it.

TICKED = "pub fn full_tick(ticked: &mut Ticked, input: Input) -> Answer {"
BY_VALUE_TICK = [
    "let to: *mut Ticked = ticked;",
    "unsafe { (*library::trigger_full_tick(to, (*to).card, input)).answer }",
]
BY_POINTER_TICK = [
    "unsafe { library::trigger_full_tick_at(&mut ticked.card, &input, &mut ticked.answer) };",
    "ticked.answer",
]


def full_tick(lines):
    return "\n".join(["#[inline]", TICKED] + ["    " + line for line in lines] + ["}"])


# ---- the face of a call, which is the same both ways

def face(call):
    """Its name, what it takes, and what it gives."""
    name = call.base if call.library == "trigger" else "%s_%s" % (call.library, call.base)
    words = []
    for param, kind in call.params:
        if isinstance(kind, Place) or (param == "card" and call.gives_card):
            words.append("%s: &mut %s" % (param, name_of(getattr(kind, "of", kind))))
        elif param == "card":
            words.append("card: &Card")
        else:
            words.append("%s: %s" % (param, name_of(kind)))
    kinds = [name_of(kind) for _, kind in call.parts] if call.parts else [name_of(call.result)]
    return listed("pub fn %s(" % name, words, ") -> %s {" % tuple_of(kinds))


def slices(name, kind):
    start = "%s.as_%sptr()" % (name, "mut_" if kind.changed else "")
    return [start, "%s.len()" % name]


def tuple_of(words):
    return words[0] if len(words) == 1 else "(%s)" % ", ".join(words)


def function(call, lines):
    return "\n".join(["#[inline]"] + face(call) + ["    " + line for line in lines] + ["}"])


# ---- by value

def has_card(call):
    return call.gives_card or getattr(call.result, "name", "") == "Card"


def value_extern(call):
    """A result with a card is written where a hidden first argument points. It is named: so it is not copied twice."""
    words = ["to: *mut %s" % call.result.name] if has_card(call) else []
    for name, kind in call.params:
        if isinstance(kind, Slice):
            words += ["%s: *%s %s" % (name, "mut" if kind.changed else "const", kind.of.name), "%s_len: usize" % name]
        else:
            words.append("%s: %s" % (name, "*mut " + kind.of.name if isinstance(kind, Place) else name_of(kind)))
    result = ("*mut " if has_card(call) else "") + call.result.name
    return listed("pub fn %s(" % call.name, words, ") -> %s;" % result, 12)


def value_words(call):
    words = []
    for name, kind in call.params:
        if isinstance(kind, Slice):
            words += slices(name, kind)
        else:
            words.append("*card" if name == "card" and not isinstance(kind, Place) else name)
    return words


def by_value(call):
    called, words = "library::" + call.name, value_words(call)
    parts = tuple_of(["result.%s" % name for name, _ in call.parts]) if call.parts else ""
    if call.gives_card:
        lines = unsafe("let result = ", "&*" + called, ["to.as_mut_ptr()"] + words, ";")
        return function(call, ["let mut to = MaybeUninit::uninit();"] + lines + ["*card = result.card;", parts])
    if has_card(call):
        lines = unsafe("", "*" + called, ["to.as_mut_ptr()"], "")
        return function(call, ["let mut to = MaybeUninit::uninit();"] + lines)
    if parts:
        return function(call, unsafe("let result = ", called, words, ";") + [parts])
    return function(call, unsafe("", called, words, ""))


# ---- by pointers

def outs(call):
    """The results that are written where pointers point: their names and types."""
    if isinstance(call.result, Number):
        return []
    if call.parts is None:
        return [("result", call.result)]
    return [(name, kind) for name, kind in call.parts if name != call.returned]


def pointer_extern(call):
    words = []
    for name, kind in call.params:
        if isinstance(kind, Slice):
            words += ["%s: *%s %s" % (name, "mut" if kind.changed else "const", kind.of.name), "%s_len: usize" % name]
        elif isinstance(kind, Number):
            words.append("%s: %s" % (name, kind.name))
        else:
            changed = isinstance(kind, Place) or (name == "card" and call.gives_card)
            words.append("%s: *%s %s" % (name, "mut" if changed else "const", getattr(kind, "of", kind).name))
    words += ["%s: *mut %s" % (name, name_of(kind)) for name, kind in outs(call)]
    returned = call.result if isinstance(call.result, Number) else call.result.kind_of(call.returned or "")
    result = " -> " + returned.name if returned else ""
    return listed("pub fn %s_%s_at(" % (call.library, call.base), words, ")%s;" % result, 12)


def by_pointer(call):
    words = []
    for name, kind in call.params:
        if isinstance(kind, Slice):
            words += slices(name, kind)
        else:
            words.append("&" + name if isinstance(kind, Struct) and name != "card" else name)
    lines, results = [], {}
    for name, kind in outs(call):
        number = isinstance(kind, Number)
        lines.append("let mut %s = %s;" % (name, "0" if number else "MaybeUninit::uninit()"))
        words.append("&mut " + name if number else name + ".as_mut_ptr()")
        results[name] = name if number else "unsafe { %s.assume_init() }" % name
    called = "library::%s_%s_at" % (call.library, call.base)
    if isinstance(call.result, Number) or (call.parts and not lines):
        return function(call, unsafe("", called, words, ""))
    start = ""
    if call.parts:
        start = "let %s = " % call.returned
        results[call.returned] = call.returned
    names = [name for name, _ in call.parts] if call.parts else ["result"]
    return function(call, lines + unsafe(start, called, words, ";") + [tuple_of([results[name] for name in names])])


def library(calls, extern):
    """The calls as the linker knows them, in a module of their own: some have the names of functions beside it."""
    blocks = []
    for name in dict.fromkeys(call.library for call in calls):
        rows = [line for call in calls if call.library == name for line in extern(call)]
        blocks.append('#[link(name = "%s", kind = "static")]\nextern "C" {\n%s\n}' % (name, indented(rows)))
    return "mod library {\n%s\n}" % indented(["use super::*;", ""] + ["\n\n".join(blocks)])


def module(condition, safe, blocks):
    comment = ["// " + line for line in textwrap.wrap(safe, WIDTH - 3)]
    inside = indented(["use super::*;", ""] + ["\n\n".join(blocks)])
    return "\n".join(comment + ["#[cfg(%s)]" % condition, "pub mod calls {", inside, "}"])


def given_by_callers(calls):
    """The structs that a caller makes: those that calls take, without the card, and those inside."""
    taken = [kind for call in calls for _, kind in call.params if isinstance(kind, Struct) and kind.name != "Card"]
    rows = [kind for struct in taken for _, kind in struct.fields if isinstance(kind, Array)]
    return taken + [row.of for row in rows if isinstance(row.of, Struct)]


def raw(calls, docs, constants):
    """The text of raw.rs."""
    chosen = in_place(calls)
    named = {call.name: call for call in calls}
    full, full_in = named["trigger_full_tick"], named["trigger_full_tick_in"]
    others = [call for call in chosen if call is not full_in]
    apart = [s for s in crossing(others) if any(call.parts and call.result is s for call in others)]
    shared = [s for s in crossing(others + [full]) if s not in apart]
    by_callers = given_by_callers(chosen)
    derived = ["Clone", "Copy", "Debug", "PartialEq", "Eq"]
    blocks = [HEAD.rstrip()]
    for name, doc in CONSTANTS:
        blocks.append("\n".join(documented(doc) + ["pub const %s: usize = %d;" % (name, constants[name])]))
    blocks += [struct_of(s, docs, derived + (["Default"] if s in by_callers else [])) for s in shared]
    blocks += [LAYOUT.rstrip(), "\n".join(layout_of(s) for s in shared)]
    by_values = [struct_of(s, {}, []) for s in apart] + ["\n".join(layout_of(s) for s in apart)]
    by_values += [library(others + [full], value_extern), full_tick(BY_VALUE_TICK)]
    by_values += [by_value(call) for call in others]
    by_pointers = [library(chosen, pointer_extern), full_tick(BY_POINTER_TICK)] + [by_pointer(call) for call in others]
    blocks.append(module(BY_VALUE, SAFE % "Where a call is given `to`, it writes all that this points to.", by_values))
    blocks.append(module("not(%s)" % BY_VALUE, SAFE % "A result is written whole.", by_pointers))
    return "\n\n".join(blocks) + "\n"
