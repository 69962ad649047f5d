"""Worksheets: the text of an exercise, its ticks with the levels that come in, and room to write. No answers."""
import html
import re

import exercises

NAMES = ["BNC%d" % (n + 1) for n in range(8)] + ["TTL%d" % n for n in range(8)]
WIDTH, LABEL, ROW, SWING = 180, 22, 8.4, 5  # mm: the diagram, its names, a row, and the height of a level


def inline(text):
    return re.sub(
        r"\*([^*]+)\*", r"<i>\1</i>", re.sub(r"`([^`]+)`", r"<code>\1</code>", html.escape(text, quote=False))
    )


def block(text):
    """A paragraph, a list or indented lines."""
    if text.startswith("    "):
        return "<pre>%s</pre>" % html.escape(re.sub(r"^    ", "", text.rstrip(), flags=re.M), quote=False)
    if text.startswith("- "):
        rows = re.split(r"\n- ", text.strip()[2:])
        return "<ul>%s</ul>" % "".join("<li>%s</li>" % inline(" ".join(row.split())) for row in rows)
    return "<p>%s</p>" % inline(" ".join(text.split()))


def body(task):
    """The text without its title. A list may follow its first sentence without an empty line."""
    return "\n".join(block(part) for part in task.split("\n\n")[1:] if part.strip())


# ---- the ticks


def places(wiring):
    """Cells that a wiring sets, and connectors that it drives, by number."""
    pointer, cells, driven = 1, set(), set()
    for line in wiring.splitlines():
        if line.startswith("M E="):
            pointer = int(line[4:])
        elif pointer <= 16:
            cells.add(pointer)
        elif line.startswith("36CCA Z="):
            driven.add(pointer)
    return sorted(cells), sorted(driven)


def wave(levels, y, step):
    """A level for each tick, as a line."""
    d, before = [], None
    for i, high in enumerate(levels):
        at = "%.2f %.2f" % (LABEL + i * step, y + ROW - 1.2 - SWING * high)
        d.append(("M" if before is None else "L") + at + "h%.2f" % step)
        before = high
    return '<path class="level" d="%s"/>' % "".join(d)


def label(y, text):
    return '<text x="0" y="%.2f">%s</text>' % (y + ROW - 2.4, text)


def torn(ticks, bit, y, step):
    """Where the line has nothing attached."""
    return "".join(
        '<rect class="torn" x="%.2f" y="%.2f" width="%.2f" height="%.2f"/>'
        % (LABEL + i * step, y + 0.6, step, ROW - 1.2)
        for i, tick in enumerate(ticks)
        if not int(tick.split()[3], 16) >> bit & 1
    )


def rows_of(e, ticks):
    """The rows of the diagram: a name, and levels where they are given."""
    samples = [int(tick.split()[2], 16) for tick in ticks]
    used = [bit for bit in range(16) if any(sample >> bit & 1 for sample in samples)]
    cells, driven = places(e.solution)
    inputs = [(NAMES[bit] + " in", [sample >> bit & 1 for sample in samples], bit) for bit in used]
    blank = ["cell %d" % n for n in cells] + [NAMES[n - 33] for n in driven]
    if any(tick.endswith("Q") for tick in ticks):
        blank.append("who wakes")
    return inputs + [(name, None, None) for name in blank]


def diagram(e):
    ticks = exercises.tick_lines(e)
    rows = rows_of(e, ticks)
    step = min(10, (WIDTH - LABEL) / len(ticks))
    width, height = LABEL + step * len(ticks), 5 + ROW * len(rows)
    parts = [
        '<text class="number" x="%.2f" y="3.6">%d</text>' % (LABEL + (i + 0.5) * step, i + 1) for i in range(len(ticks))
    ]
    for n, (name, levels, bit) in enumerate(rows):
        y = 5 + n * ROW
        parts.append('<path class="grid" d="M0 %.2fH%.2f"/>' % (y + ROW, width))
        parts.append(label(y, name))
        if levels:
            parts += [torn(ticks, bit, y, step), wave(levels, y, step)]
    parts += ['<path class="grid" d="M%.2f 4V%.2f"/>' % (LABEL + i * step, height) for i in range(len(ticks) + 1)]
    note = (
        '<p class="small">Grey: nothing is attached. What the row shows there is what the switch would bring.</p>'
        if any(" ffff " not in t for t in ticks)
        else ""
    )
    return (
        '<svg xmlns="http://www.w3.org/2000/svg" viewBox="0 0 %.2f %.2f" width="%.2fmm" height="%.2fmm">%s</svg>%s'
        % (width, height + 0.2, width, height + 0.2, "".join(parts), note)
    )


STYLE = """@page { size: A4; margin: 14mm 15mm; }
body { font: 10.5pt/1.35 sans-serif; width: 180mm; margin: 0 auto; }
h1 { font-size: 15pt; margin: 0 0 1mm; }
p, ul, pre { margin: 1.6mm 0; }
.name { border-bottom: 0.3mm solid #888; padding-bottom: 1mm; color: #555; }
.small { font-size: 9pt; color: #555; margin: 1mm 0; }
svg { display: block; margin: 2.5mm 0 1mm; }
svg text { font: 3.2px sans-serif; }
svg .number { text-anchor: middle; font-size: 2.8px; fill: #555; }
.grid { stroke: #bbb; stroke-width: 0.15; fill: none; }
.level { stroke: #000; stroke-width: 0.5; fill: none; }
.torn { fill: #ccc; }
.lines { padding: 0; margin: 0; list-style: none; }
.two { columns: 2; column-gap: 10mm; }
.lines li { border-bottom: 0.2mm solid #bbb; height: 6.2mm; }"""


def sheet(e):
    return """<!DOCTYPE html>
<html lang="en">
<meta charset="utf-8">
<title>Exercise %d: %s</title>
<style>
%s
</style>
<h1>Exercise %d: %s</h1>
<p class="name">Name</p>
%s
<p><b>The ticks.</b> The levels that come in are drawn. Draw what your wiring makes of them.</p>
%s
<p><b>My lines</b></p>
<ol class="lines two">%s</ol>
<p><b>My answers</b></p>
<ol class="lines">%s</ol>
</html>
""" % (
        e.number,
        html.escape(e.title),
        STYLE,
        e.number,
        html.escape(e.title),
        body(e.task),
        diagram(e),
        "<li></li>" * 18,
        "<li></li>" * 4,
    )
