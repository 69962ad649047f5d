"""C: the header from its template, and the calls by pointers over the functions of the proved modules."""
import re

from model import Array, Number, Place, Slice, Struct, in_place

WIDTH = 120
NUMBERS = {"u8": "uint8_t", "u16": "uint16_t", "u32": "uint32_t", "u64": "uint64_t", "bool": "bool", "usize": "size_t"}
LENGTHS = {"MOST": "RACK"}
INNER = "/* The functions of the module. Each copies what it is given first, and writes its result last. */"


def name_of(kind):
    """The name of a type in the header."""
    return NUMBERS[kind.name] if isinstance(kind, Number) else "trigger_" + kind.name.lower()


def declared(kind, name):
    """A field or a variable."""
    if isinstance(kind, Array):
        length = "TRIGGER_" + LENGTHS.get(kind.named, kind.named) if kind.named else kind.length
        return "%s %s[%s]" % (name_of(kind.of), name, length)
    return "%s %s" % (name_of(kind), name)


def wrapped(start, words, end):
    """A list in parentheses, in lines that go on below the open one."""
    lines, line = [], start
    for i, word in enumerate(words):
        piece = word + (", " if i + 1 < len(words) else end)
        if len(line) + len(piece.rstrip()) > WIDTH:
            lines.append(line.rstrip())
            line = " " * len(start)
        line += piece
    return "\n".join(lines + [line if words else start + "void" + end])


def sliced(name, kind):
    pointer = ("" if kind.changed else "const ") + name_of(kind.of) + " *" + name
    return [pointer, "size_t %s_len" % name]


def by_value(call):
    """The prototype of a call by value."""
    words = []
    for name, kind in call.params:
        if isinstance(kind, Slice):
            words += sliced(name, kind)
        else:
            words.append("%s *%s" % (name_of(kind.of), name) if isinstance(kind, Place) else declared(kind, name))
    return wrapped("%s %s(" % (name_of(call.result), call.name), words, ")")


def given(call):
    """What a call by pointers is given."""
    words = []
    for name, kind in call.params:
        if isinstance(kind, Slice):
            words += sliced(name, kind)
        elif isinstance(kind, Number):
            words.append(declared(kind, name))
        else:
            changed = isinstance(kind, Place) or (name == "card" and call.gives_card)
            struct = kind.of if isinstance(kind, Place) else kind
            words.append("%s%s *%s" % ("" if changed else "const ", name_of(struct), name))
    return words


def whole(call):
    """The name of the pointer to a result that is given whole: ticked for a RackTicked."""
    return re.findall("[A-Z][a-z]*", call.result.name)[-1].lower()


def by_pointer(call):
    """The prototype of a call by pointers."""
    words, returned = given(call), "void"
    if isinstance(call.result, Number):
        returned = name_of(call.result)
    else:
        parts = call.parts
        if parts is None:
            words.append("%s *%s" % (name_of(call.result), whole(call)))
        else:
            words += ["%s *%s" % (name_of(kind), name) for name, kind in parts if name != call.returned]
        if call.returned:
            returned = name_of(call.result.kind_of(call.returned))
    return wrapped("%s %s_%s_at(" % (returned, call.library, call.base), words, ")")


def struct_of(struct, docs):
    lines = ["typedef struct {"]
    for name, kind in struct.fields:
        line = "    %s;" % declared(kind, name)
        lines.append(line + ("  /* %s */" % docs[name] if name in docs else ""))
    return "\n".join(lines + ["} %s;" % name_of(struct)])


def layout(structs):
    """Sizes and offsets, as a compiler checks them; those with a length are the same on x86-64 alone."""
    blocks = []
    for struct in sorted(structs, key=lambda s: s.has_length):
        rows = ["TRIGGER_SIZE(%s, %d);" % (name_of(struct), struct.size)]
        rows += ["TRIGGER_AT(%s, %s, %d);" % (name_of(struct), name, at) for name, at in struct.offsets()]
        blocks.append((struct.has_length, "\n".join(rows)))
    fixed = [text for long, text in blocks if not long]
    long = [text for long, text in blocks if long]
    return "\n\n".join(fixed) + "\n\n#ifdef TRIGGER_BY_VALUE\n" + "\n\n".join(long) + "\n#endif"


def fingerprint(structs):
    """One number of all names, types and offsets that are the same on every processor (FNV-1a)."""
    rows = []
    for struct in structs:
        if not struct.has_length:
            fields = [declared(kind, name) for name, kind in struct.fields]
            rows.append((struct.name, struct.size, struct.offsets(), fields))
    total = 2166136261
    for byte in repr(rows).encode():
        total = (total ^ byte) * 16777619 % 2 ** 32
    return total


# ---- the calls by pointers, over the functions of a module

def inner_result(call):
    """The type that a module writes its result as: a length has eight bytes there on every processor."""
    struct = isinstance(call.result, Struct) and call.result.has_length
    return "inner_" + call.result.name.lower() if struct else name_of(call.result)


def inner_types(calls):
    texts = []
    for struct in dict.fromkeys(c.result for c in calls if isinstance(c.result, Struct) and c.result.has_length):
        rows = ["    %s;" % declared(kind, name).replace("size_t", "uint64_t") for name, kind in struct.fields]
        texts.append("typedef struct {\n%s\n} inner_%s;" % ("\n".join(rows), struct.name.lower()))
    return "\n\n".join(texts)


def inner(call):
    """The declaration of a function of the module, and the types behind its pointers, by their places."""
    words, pointers = [], []
    if isinstance(call.result, Struct):
        words.append("%s *result" % inner_result(call))
        pointers.append((0, inner_result(call)))
    for name, kind in call.params:
        if isinstance(kind, Number):
            words.append(declared(kind, name).replace("size_t", "uint64_t"))
            continue
        struct = kind.of if isinstance(kind, Place) else kind
        pointed = "slice" if isinstance(kind, Slice) else name_of(struct)
        pointers.append((len(words), pointed))
        words.append("%s%s *%s" % ("" if isinstance(kind, Place) else "const ", pointed, name))
    start = "void" if isinstance(call.result, Struct) else name_of(call.result)
    return wrapped("%s %s_inner_%s(" % (start, call.library, inner_name(call)), words, ");"), pointers


def inner_name(call):
    return call.name[len(call.library) + 1:]


def body(call):
    """A call by pointers: it passes on what it is given, and hands over the result."""
    slices = [name for name, kind in call.params if isinstance(kind, Slice)]
    words = ["&%s_slice" % name if name in slices else name for name, _ in call.params]
    called = "%s_inner_%s" % (call.library, inner_name(call))
    lines = []
    if slices:
        made = ["%s_slice = slice_of(%s, %s_len)" % (name, name, name) for name in slices]
        lines.append(wrapped("    const slice ", made, ";"))
    if isinstance(call.result, Number):
        lines.append("    return %s(%s);" % (called, ", ".join(words)))
    elif call.parts is None:
        lines.append("    %s(%s);" % (called, ", ".join([whole(call)] + words)))
        lines += ["    return %s->%s;" % (whole(call), call.returned)] if call.returned else []
    else:
        lines += ["    %s result;" % inner_result(call), "    %s(%s);" % (called, ", ".join(["&result"] + words))]
        lines += ["    *card = result.card;"] if call.gives_card else []
        for name, kind in call.parts:
            cast = "(size_t)" if kind.name == "usize" else ""
            lines += ["    *%s = %sresult.%s;" % (name, cast, name)] if name != call.returned else []
        lines.append("    return result.%s;" % call.returned)
    return by_pointer(call) + "\n{\n" + "\n".join(lines) + "\n}"


def pointers(library, calls, head, own):
    """The file of the calls by pointers of one library."""
    chosen = [call for call in in_place(calls) if call.library == library]
    declarations = [inner(call) for call in chosen]
    same = []
    for call, (_, pointed) in zip(chosen, declarations):
        same += ["SAME(%s, MODULE_%s_%d);" % (kind, call.name, at) for at, kind in pointed]
    if any(isinstance(k, Slice) and isinstance(k.of, Struct) for c in chosen for _, k in c.params):
        same.append("SAME(trigger_card, MODULE_%s_row_step);" % library)
    declared_first = [INNER] + [text for text, _ in declarations]
    blocks = [head, inner_types(chosen), "\n".join(declared_first), "\n".join(same), own]
    blocks += [body(call) for call in chosen]
    return "\n\n".join(block for block in blocks if block) + "\n"
