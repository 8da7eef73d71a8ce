"""Writes docs/vers.1, the manual page of the commands, out of their help in crates/vers_commands/src/help.rt.

A paragraph of the help that begins with a word and a colon is a section. tools/vers_script.py renders the page.
"""
import re

from sources import read

PAGE, HELP = "docs/vers.1", "crates/vers_commands/src/help.rt"
# What the help doesn't say. Names of queries are neither hyphenated nor spread.
HEAD = '''.TH VERS 1 "" "{version}" "User Commands"
.nh
.ad l
.SH NAME
vers \\- answers lines about succinct data structures
.SH SYNOPSIS
.B {usage}
.SH DESCRIPTION
'''


def texts_of_help():
    """Returns the texts that the commands print, by the names of their constants."""
    found = re.findall(r'(?s)pub const (\w+): &str = "((?:[^"\\]|\\.)*)";', read(HELP))
    return {name: re.sub(r"\\(.)", lambda it: it[1].replace("n", "\n"), text) for name, text in found}


def escaped(text):
    """Returns a text as roff prints it unchanged."""
    text = text.replace("\\", "\\e").replace("-", "\\-").replace("'", "\\(aq").replace("`", "\\(ga")
    return re.sub(r"(?m)^\.", r"\\&.", text)


def tagged(rows):
    """Returns indented texts, each below its tag."""
    return "".join(f".TP\n.B {escaped(tag)}\n{escaped(' '.join(text.split()))}\n" for tag, text in rows)


def paragraph(text):
    """Returns a paragraph of the help: commands, lines to copy, load lines with their queries, or prose."""
    if text.startswith("    vers"):
        return tagged(re.findall(r"(?m)^    (vers.*?) {2,}(.*(?:\n {8,}.*)*)", text))
    if text.startswith("    "):
        return f".PP\n.in +4\n.nf\n{escaped(text.strip())}\n.fi\n.in\n"
    if "\n    " in text:
        return tagged(re.findall(r"(?m)^(\w.*)\n((?:    .*\n?)+)", text))
    return f".PP\n{escaped(text)}\n"


def sections(paragraphs):
    """Yields paragraphs, each below the heading that it begins with."""
    for it in paragraphs:
        heading, rest = re.fullmatch(r"(?s)(?:([A-Z][a-z ]*):\s*)?(.*)", it).groups()
        yield f".SH {heading.upper()}\n" if heading else ""
        yield paragraph(rest[0].upper() + rest[1:] if heading else rest) if rest else ""


def page():
    """Returns the text of the manual page."""
    texts = texts_of_help()
    version, (usage, *paragraphs) = texts.pop("VERSION"), texts.pop("HELP").split("\n\n")
    parts = [HEAD.format(version=version, usage=escaped(usage.partition(": ")[2])), *sections(paragraphs)]
    for text in texts.values():
        usage, *paragraphs = text.split("\n\n")
        parts += [f".SH {usage.partition(': ')[2].upper()}\n", *sections(paragraphs)]
    return "".join(parts)
