"""Looks whether each link of a page leads to a file and an anchor that are there; whether docs/README.md links each page of docs/;
whether the pages of docs/ that other files name are there, and the files of crates that two pages name; how long the pages are; how
long the lines of crates are; and whether each example in the head of a crate stands in a caller that is compiled. It tries itself on
pages with such faults."""

import glob
import os
import re
import sys
import tempfile
import xml.dom.minidom

TOP = os.path.dirname(os.path.dirname(os.path.abspath(__file__)))
PAGES = ["*.md", "docs/*.md", "bench/*.md", "examples/*.md", "tests/*/README.md"]
# What names pages of docs/ beside them.
NAMING = ["*", "bench/*", "crates/*/src/*.rt", "include/*", "must-fail/*", "share/*", "tests/*", "tests/*/*"]
# Pages that the program's help names, and that lead on to another one.
NOT_LISTED = {"README.md"}
LONGEST = {"README.md": 6144, "docs/*.md": 150000}
# The most characters in a line of a crate, but for texts in quotes, and attributes, which `rt fmt` writes on one line.
LONGEST_LINE = 140
# The crates that callers begin with, each of which has an example, and those callers.
ENTRIES = ["lnt_wire", "lnt_unit", "lnt_machine", "lnt_lines", "lnt_table", "lnt_cli"]
CALLERS = ["crates/lnt_example/src/*.rt", "crates/lnt_surface/src/*.rt"]
SOURCES = ["crates/*/src/**/*.rt", "crates/*/specs/**/*.antt", "crates/*/proofs/**/*.antt"]


def matching(top, patterns):
    names = {name for pattern in patterns for name in glob.glob(os.path.join(top, pattern), recursive=True) if os.path.isfile(name)}
    return sorted(os.path.relpath(name, top) for name in names)


def read(top, name):
    with open(os.path.join(top, name), encoding="utf-8", errors="replace") as file:
        return file.read()


def without_blocks(text):
    return re.sub(r"(?ms)^```.*?^```$", "", text)


def anchors(text):
    """The anchors of a page's headings, as GitHub makes them."""
    counts, found = {}, set()
    for heading in re.findall(r"(?m)^#+ +(.*?) *$", without_blocks(text)):
        words = re.sub(r"\[([^]]*)\]\([^)]*\)", r"\1", heading).lower()
        slug = re.sub(r"[^\w\- ]", "", words).replace(" ", "-")
        counts[slug] = counts.get(slug, -1) + 1
        found.add("%s-%d" % (slug, counts[slug]) if counts[slug] else slug)
    return found


def links(text):
    """The targets of a page's links and pictures."""
    return re.findall(r"\[[^]]*\]\(([^) ]+)\)", re.sub(r"`[^`\n]*`", "code", without_blocks(text)))


def wrong_link(top, page, target):
    """What is wrong with a link, or None."""
    if re.match(r"[a-z]+:", target):
        return None
    path, _, anchor = target.partition("#")
    name = os.path.normpath(os.path.join(os.path.dirname(page), path)) if path else page
    if name.startswith("..") or not os.path.exists(os.path.join(top, name)):
        return "%s leads to %s, which isn't there" % (page, target)
    if anchor and (not name.endswith(".md") or anchor not in anchors(read(top, name))):
        return "%s leads to %s, which has no such heading" % (page, target)
    return None


def places(page):
    """The files that the rows of docs/ARCHITECTURE.md name, each of the crate and the folder that are named before it in its row."""
    for row in re.findall(r"(?m)^\| .*$", page):
        crate = folder = None
        for words in re.findall(r"`([^`]+)`", row):
            name = re.fullmatch(r"(?:(lnt_\w+|linetab)\b/?)?(?:(src|specs|proofs)\b/?)?(\w+\.(rt|antt))?", words)
            if name:
                crate = name[1] or crate
                folder = name[2] or ("src" if name[4] == "rt" else folder)
                if name[3] and crate:
                    yield "crates/%s/%s/%s" % (crate, folder, name[3])


def edits(page):
    """The edits that the rows of docs/WRONG_BODIES.md name, each with the places in which it may be."""
    for crate, name in re.findall(r"`(\w+)/(\w+)`", "\n".join(re.findall(r"(?m)^\| .*$", page))):
        yield "%s/%s" % (crate, name), ["crates/lnt_%s/must-fail/%s.edit" % (crate, name), "must-fail/lnt_%s/%s.edit" % (crate, name)]


def results(top):
    """Of each thing that is looked at, what is wrong, or None."""
    pages = matching(top, PAGES)
    for page in pages:
        for target in links(read(top, page)):
            yield wrong_link(top, page, target)
    listed = {target.partition("#")[0] for target in links(read(top, "docs/README.md"))}
    for page in matching(top, ["docs/*.md"]):
        name = os.path.basename(page)
        if name not in NOT_LISTED:
            yield None if name in listed else "docs/README.md doesn't lead to %s" % name
    for name in sorted((set(matching(top, NAMING)) | set(pages)) - {"tests/links.py"}):
        for page in sorted(set(re.findall(r"\bdocs/[A-Z_]+\.md\b", read(top, name)))):
            yield None if os.path.exists(os.path.join(top, page)) else "%s names %s, which isn't there" % (name, page)
    for name in places(read(top, "docs/ARCHITECTURE.md")):
        yield None if os.path.exists(os.path.join(top, name)) else "docs/ARCHITECTURE.md names %s, which isn't there" % name
    for name, there in edits(read(top, "docs/WRONG_BODIES.md")):
        yield None if matching(top, there) else "docs/WRONG_BODIES.md names %s, which isn't there" % name
    for picture in matching(top, ["docs/*.svg"]):
        yield wrong_picture(top, picture)
    yield long_line(top, matching(top, SOURCES))
    for crate in ENTRIES:
        yield wrong_example(top, crate)
    for pattern, most in LONGEST.items():
        size = sum(os.path.getsize(os.path.join(top, name)) for name in matching(top, [pattern]))
        yield None if size <= most else "%s has %d bytes, and should have at most %d" % (pattern, size, most)


def long_line(top, names):
    """The first line of these files that is too long, or None."""
    for name in names:
        for number, line in enumerate(read(top, name).split("\n"), 1):
            if len(line) > LONGEST_LINE and '"' not in line and not line.lstrip().startswith("#"):
                return "%s:%d has %d characters, and should have at most %d" % (name, number, len(line), LONGEST_LINE)
    return None


def wrong_example(top, crate):
    """What is wrong with the example in the head of a crate, or None. Its lines stand together in one of the callers."""
    name = "crates/%s/src/lib.rt" % crate
    found = re.search(r"(?ms)^//! ```$(.*?)^//! ```$", read(top, name)) if matching(top, [name]) else None
    if not found:
        return "%s has no example" % name
    example = [line.strip() for line in re.sub(r"(?m)^//!", "", found[1]).split("\n") if line.strip()]
    for caller in matching(top, CALLERS):
        lines = [line.strip() for line in read(top, caller).split("\n")]
        if any(lines[at : at + len(example)] == example for at in range(len(lines))):
            return None
    return "%s has an example that no caller has" % name


def wrong_picture(top, name):
    """Whether a picture is read, and has colours for a dark page too."""
    try:
        xml.dom.minidom.parseString(read(top, name))
    except xml.parsers.expat.ExpatError as fault:
        return "%s is no XML: %s" % (name, fault)
    return None if "prefers-color-scheme: dark" in read(top, name) else "%s has no colours for a dark page" % name


def finds_its_faults():
    """What it finds of small pages with one fault of each kind."""
    with tempfile.TemporaryDirectory() as top:
        os.mkdir(os.path.join(top, "docs"))
        for crate in ("lnt_c", "lnt_wire", "lnt_unit", "lnt_example"):
            os.makedirs(os.path.join(top, "crates/%s/src" % crate))
        texts = {
            "README.md": "# A page\n\n[there](docs/A.md#one-two) [gone](docs/B.md) [far](https://example.org/x)\n",
            "docs/README.md": "[here](#nowhere) [a](ARCHITECTURE.md) [b](WRONG_BODIES.md) `[no](link.md)`\n\n```\n[no](link.md)\n```\n",
            "docs/A.md": "# One, two\n\n# One two\n\n[itself](#one-two-1) [up](../README.md#a-page) [out](../../x)\n",
            "docs/ARCHITECTURE.md": "| a | `lnt_a/specs/B.antt`, `C.antt`, `lnt_b`, `d.rt` |\n",
            "docs/WRONG_BODIES.md": "| a | `a/b` |\n",
            "script": "docs/C.md\n",
            "crates/lnt_wire/src/lib.rt": "//! ```\n//! f(\n//!     1)?\n//! ```\n",
            "crates/lnt_unit/src/lib.rt": "//! ```\n//! f(2)\n//! ```\n",
            "crates/lnt_example/src/lib.rt": "{\n    f(\n        1)?\n}\n",
            "crates/lnt_c/src/c.rt": '"%s"\n#%s\n%s\n' % tuple(length * "é" for length in (140, 140, 141)),
            "docs/a.svg": "<svg>",
        }
        for name, text in texts.items():
            with open(os.path.join(top, name), "w", encoding="utf-8") as file:
                file.write(text)
        return [it for it in results(top) if it]


WANTED = [
    "README.md leads to docs/B.md, which isn't there",
    "docs/A.md leads to ../../x, which isn't there",
    "docs/README.md leads to #nowhere, which has no such heading",
    "docs/README.md doesn't lead to A.md",
    "README.md names docs/B.md, which isn't there",
    "script names docs/C.md, which isn't there",
    "docs/ARCHITECTURE.md names crates/lnt_a/specs/B.antt, which isn't there",
    "docs/ARCHITECTURE.md names crates/lnt_a/specs/C.antt, which isn't there",
    "docs/ARCHITECTURE.md names crates/lnt_b/src/d.rt, which isn't there",
    "docs/WRONG_BODIES.md names a/b, which isn't there",
    "crates/lnt_c/src/c.rt:3 has 141 characters, and should have at most 140",
    "crates/lnt_unit/src/lib.rt has an example that no caller has",
    *("crates/%s/src/lib.rt has no example" % crate for crate in ENTRIES[2:]),
]


def main():
    found = finds_its_faults()
    picture = [it for it in found if it.startswith("docs/a.svg is no XML")]
    whole = len(picture) == 1 and [it for it in found if it not in picture] == WANTED
    checked = list(results(TOP)) + [None if whole else "of pages with faults it finds %s" % found]
    wrong = [it for it in checked if it]
    for text in wrong:
        print("failed: " + text)
    print("%d passed, %d failed" % (len(checked) - len(wrong), len(wrong)))
    sys.exit(1 if wrong else 0)


main()
