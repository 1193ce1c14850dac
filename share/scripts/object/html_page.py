"""The page of the word report, as text: no part of it comes from elsewhere, and no script is in it."""

import html
import os

from scripts.object.coverage import columns
from scripts.object.functions import readable, sized
from scripts.object.html_style import HEAD
from scripts.object.report import text_of
from scripts.object.sources import Sources
from scripts.object.summary import kinds_text, starts_text
from scripts.object.tally import EXTRA, MISSING, WRONG, what_is_so, worst_files, worst_functions
from scripts.telling import shown

RIGHT = "right"
WHATS = (RIGHT, WRONG, MISSING, EXTRA)
ROWS = 20  # of a table, before the others
MORE = 980  # of the others
NAME = 44  # characters of a name on one line
HEIGHT = 48  # of the strip
PIECE = '<rect class="%s" x="%.3f%%" y="%.1f" width="%.3f%%" height="%.1f"/>'
BARS = None  # the head of a column of bars
LEAST = 3  # of a part of it, so that single bytes are seen


# ---- texts


def escaped(text):
    """A text as it stands in the page."""
    return html.escape(text_of(shown(text)), quote=True)


def of_latin(text):
    """A path of an answer, which has one character for each byte."""
    return os.fsdecode(text.encode("latin-1"))


def in_one_line(text, is_path=False):
    """A name on one line: of a long one the beginning and the end, of a path the end, and the whole below it."""
    whole = escaped(text)
    text = text_of(shown(text))
    if len(text) <= NAME:
        return "<code>%s</code>" % whole
    half = NAME // 2
    cut = "&hellip;" + html.escape(text[-NAME:]) if is_path else html.escape(text[:half]) + "&hellip;" + html.escape(text[-half:])
    return '<details><summary title="%s"><code>%s</code></summary><code>%s</code></details>' % (whole, cut, whole)


def share(count, total):
    return "%.1f %%" % (100 * count / total) if total else "-"


# ---- bars


def bar(counts):
    """A bar of what is right, wrong, missing and extra."""
    total, at, parts = sum(counts.values()) or 1, 0.0, []
    for what in WHATS:
        width = 100 * counts.get(what, 0) / total
        if width:
            parts.append('<rect class="%s" x="%.2f%%" width="%.2f%%" height="12"/>' % (what, at, width))
        at += width
    told = ", ".join("%s %d" % (what, counts[what]) for what in WHATS if counts.get(what))
    return '<svg class="bar" role="img" aria-label="%s">%s</svg>' % (told, "".join(parts))


def column_parts(column):
    """The parts of a column of the strip, from the lowest up, with their heights."""
    counts = {RIGHT: column.right(), **column.counts}
    heights = {what: max(LEAST, HEIGHT * counts[what] / column.size) for what in WHATS[1:] if counts.get(what)}
    scale = min(1, HEIGHT / sum(heights.values())) if heights else 1
    heights = {what: height * scale for what, height in heights.items()}
    heights[RIGHT] = HEIGHT - sum(heights.values())
    return [(what, heights[what]) for what in WHATS if heights.get(what, 0) > 0.05]


def strip(found):
    """The code by address, without what has no lines."""
    width, parts = 100 / max(1, len(found)), []
    for k, column in enumerate(found):  # each with its own text, which is shown over it
        told = ", ".join("%s %d" % (what, size) for what, size in ((RIGHT, column.right()), *column.counts.items()) if size)
        at, pieces = HEIGHT, []
        for what, height in column_parts(column):
            at -= height
            pieces.append(PIECE % (what, k * width, at, width + 0.02, height))
        parts.append("<g><title>0x%x to 0x%x: %s</title>%s</g>" % (column.low, column.high, told, "".join(pieces)))
    return '<svg class="strip" role="img" aria-label="The code by address, from 0x%x to 0x%x">%s</svg>' % (
        found[0].low if found else 0, found[-1].high if found else 0, "".join(parts))


# ---- tables


def table(heads, rows, what):
    """A table with these heads and rows; those behind the first twenty are folded."""
    if not rows:
        return "<p>None.</p>"
    head = "<tr>%s</tr>" % "".join("<td class=wide></td>" if each is BARS else "<th scope=col>%s</th>" % each for each in heads)
    shape = '<div class="scroll" tabindex="0" role="region" aria-label="%s"><table><thead>%s</thead><tbody>%s</tbody></table></div>'
    text = shape % (what, head, "".join(rows[:ROWS]))
    if rows[ROWS:]:
        more = shape % (what, head, "".join(rows[ROWS:]))
        text += "<details class=more><summary>and %d more</summary>%s</details>" % (len(rows) - ROWS, more)
    return text


def numbers(counts):
    return "".join("<td>%s</td>" % (counts.get(what) or "") for what in WHATS)


def bars_table(first, found, totals, name_of, what):
    """A table of names with bars, the worst first."""
    rows = []
    for name, sizes in found[: ROWS + MORE]:
        counts = dict(sizes)
        counts[RIGHT] = max(0, totals[name] - sizes[WRONG] - sizes[MISSING])
        rows.append("<tr><th scope=row>%s</th><td class=wide>%s</td>%s</tr>" % (name_of(name), bar(counts), numbers(counts)))
    return table([first, BARS, *WHATS], rows, what) + left_out(len(found), ROWS + MORE)


def left_out(count, most):
    return "<p>and %d more, which aren't shown</p>" % (count - most) if count > most else ""


def function_names(names):
    """The names of functions, as they stand in the page."""
    texts = dict(zip(names, readable(names, longest=None)))
    return lambda name: in_one_line(texts.get(name, name)) if name else "<i>between functions</i>"


def answer_cell(answer, sources):
    """An answer, with the line of its source, if that is there."""
    if answer is None:
        return "<td class=answers><i>none</i></td>"
    path = of_latin(answer.path)
    place = "%s:%s" % (path, ":".join(map(str, (answer.line, *answer.rest[:1]))))
    line = sources.line(path, answer.line)
    source = "<pre>%s</pre>" % escaped(line.replace("\t", " ")) if line else ""
    return "<td class=answers>%s%s</td>" % (in_one_line(place, is_path=True), source)


def places_table(findings, sources, names):
    """Each place with a wrong answer, with both answers."""
    tally = findings.tally
    places = [stretch for stretch in tally.worst.in_order() if stretch.table is not None]
    count = tally.places[WRONG] + tally.places[EXTRA]
    rows = ["<tr><th scope=row><code>0x%x</code> <small>%s %s</small><br>%s</th>%s%s</tr>" % (
        it.low, sized(it.high - it.low, True), what_is_so(it), names(tally.functions.at(it.low)[0] or ""),
        answer_cell(it.table, sources), answer_cell(it.section, sources)) for it in places]
    told = "<p>%d of %d places%s.</p>" % (len(rows), count, ", the largest" * (len(rows) < count))
    return told + table(["place", "it says", "the program says"], rows, "Wrong places")


# ---- parts


def verdict(part):
    """What the answer comes to, in a word or two."""
    line = part.lines[0] if part.lines else ""
    if not part.findings:
        return "not compared"
    tally = part.findings.tally
    if tally.count(WRONG) or tally.count(EXTRA):
        return "wrong"
    if line.startswith("no 46"):
        return "incomplete: no answer for %s" % share(tally.count(MISSING), tally.total)
    return "right where it answers: no answer for %s" % share(tally.count(MISSING), tally.total) if tally.count(MISSING) else "right"


def mark_of(part):
    """A mark before that, and whether nothing is wrong."""
    told = verdict(part)
    return "&#10003;" if told == "right" else "&#9680;" if told.startswith("right ") else "&#10007;", told.startswith("right")


def counts_list(tally):
    """How many addresses are right, wrong, missing and extra."""
    total = tally.total
    texts = {RIGHT: tally.right(), WRONG: tally.count(WRONG), MISSING: tally.count(MISSING), EXTRA: tally.count(EXTRA)}
    about = {RIGHT: "as the program says", WRONG: "another answer", MISSING: "no answer", EXTRA: "no line in the program"}
    rows = "".join(
        '<div><dt><svg class=key aria-hidden=true><rect class="%s" width="16" height="16"/></svg> %s</dt>'
        '<dd><b data-count="%s">%d</b> <small>%s, %s</small></dd></div>' % (
            what, what, what, texts[what], share(texts[what], total) if what != EXTRA else "beside them", about[what]) for what in WHATS)
    return '<dl class=counts>%s</dl><p>of <b data-count="total">%d</b> addresses with a line</p>' % (rows, total)


def details_of(part, number):
    """The parts of a page that a comparison has."""
    findings, tally, coverage = part.findings, part.findings.tally, part.coverage
    yield counts_list(tally)
    yield strip(columns(coverage.ranges, tally.ranges))
    facts = [("kinds", kinds_text(tally)), ("paths", starts_text(tally)), ("cause", findings.cause), ("what settles it", findings.remedy)]
    yield "".join("<p class=fact><b>%s:</b> %s</p>" % (what, escaped(text)) for what, text in facts if text)
    functions, files = worst_functions(tally), worst_files(tally)
    names = function_names(sorted({name for name, _ in functions[: ROWS + MORE] if name}))
    totals = coverage.by_function.sizes.copy()
    totals[""] = coverage.by_function.between
    if tally.functions.starts:
        yield "<h3>By function</h3>" + bars_table("function", functions, totals, names, "By function")
    yield "<h3>By file</h3>" + bars_table("file", files, coverage.by_file, lambda path: in_one_line(of_latin(path), True), "By file")
    lacking = sorted(((name, sizes) for name, sizes in functions if sizes[MISSING]), key=lambda it: (-it[1][MISSING], it[0]))
    if tally.functions.starts:
        rows = ["<tr><th scope=row>%s</th><td>%d</td><td>%s</td></tr>" % (names(name), sizes[MISSING], share(sizes[MISSING], totals[name]))
                for name, sizes in lacking[: ROWS + MORE]]
        yield "<h3>Functions that lack most</h3>" + table(["function", "bytes without an answer", "of it"], rows, "Functions that lack most")
    yield "<h3>Wrong places</h3><div class=places>%s</div>" % places_table(findings, Sources(), names)


def part_of(part, number):
    """The part of a page about one table or symbol file."""
    yield '<section id="file-%d" data-file="%d"><h2>%s</h2>' % (number, number, escaped(part.name))
    yield "<p class=answer>%s</p>" % "<br>".join("<code>%s</code>" % escaped(line) for line in part.lines)
    yield "<p class=command><code>%s</code></p>" % escaped(part.command)
    mark, is_good = mark_of(part)
    yield '<p class="verdict %s">%s %s</p>' % ("good" if is_good else "bad", mark, verdict(part))
    yield "".join("<p class=note>%s</p>" % escaped(note) for note in part.notes)
    if part.findings:
        yield from details_of(part, number)
    yield "</section>"


def page(name, parts, notes):
    """The page, in pieces."""
    title = escaped(os.path.basename(name) or name)
    yield HEAD % (title, escaped(name))
    if len(parts) > 1:
        yield "<ul class=files>%s</ul>" % "".join(
            '<li><a href="#file-%d">%s</a> <b>%s</b></li>' % (k, escaped(part.name), verdict(part)) for k, part in enumerate(parts))
    yield "".join("<p class=note>%s</p>" % escaped(note) for note in notes)
    for k, part in enumerate(parts):
        yield from part_of(part, k)
    yield "</main></body></html>\n"
