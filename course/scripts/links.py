"""Links of the page for exercises, in the form that clients/web/link.js reads: deflated texts after #."""
import base64
import html
import os
import re
import urllib.parse
import zlib

import exercises

PAGE = "../docs/card.html"

PREDICT = (
    "Its ticks are covered. Predict them one after the other: which cells and connectors will be high, and which cells "
    "wake? The levels that come in are on the worksheet, and in the tick lines: 0100 is TTL0, 0200 TTL1, 0400 TTL2, "
    "0800 TTL3. Then uncover the tick. Where you were wrong, read why."
)


def packed(text):
    deflate = zlib.compressobj(9, zlib.DEFLATED, -15)
    return (
        base64.urlsafe_b64encode(deflate.compress(text.encode("ascii")) + deflate.flush()).decode("ascii").rstrip("=")
    )


def link(text, title, brief, **more):
    """`more` are the letters that link.js lists: t, x, l."""
    parts = (
        [("w", packed(text)), ("n", urllib.parse.quote(title, safe=""))] + list(more.items()) + [("d", packed(brief))]
    )
    return "#" + "&".join("%s=%s" % part for part in parts)


def brief(e):
    """The text of an exercise without its title and marks; a paragraph or a row of a list is one line."""
    paragraphs = e.task.split("\n\n")[1:]
    joined = [p.strip("\n") if p.startswith("    ") else re.sub(r"\n(?!- )\s*", " ", p.strip()) for p in paragraphs]
    return re.sub(r"[`*]", "", "\n\n".join(joined))


def entered(e):
    """What the transcript enters, without the answers."""
    rows = [re.sub(r"(^|\s+)#.*$", "", row) for row in e.ticks.splitlines()]
    kept = [row for i, row in enumerate(rows) if row and (row.startswith("> ") or not rows[i - 1].startswith("> "))]
    return "".join(row.replace("> ", "", 1) + "\n" for row in kept)


def find_link(e):
    text = e.wrong.get("given", "") + entered(e)
    return link(text, "%d %s" % (e.number, e.title), brief(e), t=packed(e.ticks))


def is_predicted(e):
    """Some exercises are predicted before anything is wired, on a wiring by which a class finds the error."""
    return os.path.exists(os.path.join(e.folder, "predict.txt"))


def predict_link(e):
    """predict.txt has the name of a wiring of the exercise, and below it what the wiring is."""
    name, words = exercises.text_of(e.folder, "predict.txt").split("\n", 1)
    wiring = e.solution if name == "solution" else e.wrong[name]
    quick = "".join(tick[:-1] + "Q\n" for tick in exercises.tick_lines(e))
    task = "%s\n\n%s" % (" ".join(words.split()), PREDICT)
    return link(wiring + quick, "%d %s: predict" % (e.number, e.title), task, x=wiring.count("\n") + 1)


def row(e):
    find = '<a href="%s%s">wire it</a>' % (PAGE, html.escape(find_link(e)))
    predict = '<a href="%s%s">predict it</a>' % (PAGE, html.escape(predict_link(e))) if is_predicted(e) else ""
    return (
        "<tr><td>%d</td><td>%s</td><td>%s</td><td>%s</td>"
        '<td><a href="exercises/%s/worksheet.html">worksheet</a></td></tr>'
        % (e.number, html.escape(e.title), predict, find, e.name)
    )


def page(every):
    return """<!DOCTYPE html>
<html lang="en">
<meta charset="utf-8">
<meta name="viewport" content="width=device-width">
<title>The exercises of the course</title>
<style>
body { font: 16px/1.5 sans-serif; max-width: 44em; margin: 2em auto; padding: 0 1em; }
td, th { padding: 0.25em 0.8em; text-align: left; border-bottom: 1px solid #ccc; }
</style>
<h1>The exercises of the course</h1>
<p>Each link opens the card in the browser with the exercise in it. <i>Predict it</i>: the wiring is there, and you say
what it will do. <i>Wire it</i>: the ticks are there with the answers that must come, and you write the wiring above
them. The tab <i>Exercise</i> has the task, says how far you are, and copies your result to be handed in.</p>
<table>
<tr><th>no.</th><th>exercise</th><th>first</th><th>then</th><th>on paper</th></tr>
%s
</table>
</html>
""" % "\n".join(
        row(e) for e in every
    )
