"""Writes docs/DEFINITIONS.md: the words of `specs/` that public contracts cite, each with its comment there.

A word is shown with the parameters of its definition. Its comment is the lines `-- ..` right above it, which
tools/text_rules.py requires. The headings of the sections are written by hand: `## TITLE (`crates/NAME/specs`)`.
"""
import os
import re
import textwrap
from collections import defaultdict

from sources import TOP, public_functions, read, read_crate

PAGE = "docs/DEFINITIONS.md"
# The heading of the section of a crate's words.
SECTION = r"(?m)^## (.*) \(`crates/(\w+)/specs`\)$"
DECLARATION = re.compile(
    r"(?m)^((?: *-- .*\n)*) *(?:(?:unfoldable|abbrev) )?pub (record |data )?(?!mod\b|use\b)([\w-]+)(.*(?:\n(?! *(?:--|abbrev|unfoldable)).+)*)")


def parameters_of(name, text):
    """Returns the parameters of a definition that names them all, or of the head of a declaration."""
    defined = re.search(rf"(?m)^ *{re.escape(name)}((?: (?:[a-z]\w*|[A-Z]))*) =", text)
    return (defined[1] if defined else " ".join(re.findall(r"\(([\w ]+) :", text.split("\n")[0]))).split()


def declared_words(crate):
    """Yields the words that a crate's `specs/` declare, as (page, name, parameters, comment)."""
    folder = f"crates/{crate}/specs"
    for file in re.findall(r"(?m)^pub mod (\w+)$", read(f"{folder}/Lib.antt")):
        if file not in ("Rows", "inside"):
            for comment, _, name, rest in DECLARATION.findall(read(f"{folder}/{file}.antt")):
                yield file, name, parameters_of(name, rest), " ".join(re.findall(r"(?m)^ *-- (.*)$", comment))


def page():
    """Returns the text of the page."""
    old = read(PAGE)
    titles = {crate: title for title, crate in re.findall(SECTION, old)}
    declared = {crate: [*declared_words(crate)] for crate in titles}
    cited = {(owner, name) for crate in os.listdir(f"{TOP}/crates") for it in public_functions(read_crate(crate))
             for owner, _, name in it.words}
    # a crate may export a word of another
    exported = {name for _, name in cited - {(crate, it[1]) for crate in declared for it in declared[crate]}}
    parts = [old.split("\n\n## ")[0]]
    for crate, title in titles.items():
        parts.append(f"## {title} (`crates/{crate}/specs`)")
        rows = defaultdict(list)
        for file, name, parameters, comment in declared[crate]:
            if (crate, name) in cited or name in exported:
                row = f"- `{' '.join([name, *parameters])}`: {comment}"
                rows[file] += textwrap.wrap(row, 120, subsequent_indent="  ", break_on_hyphens=False,
                                            break_long_words=False)
        for file, lines in rows.items():
            parts += [f"### [`{file}`](../crates/{crate}/specs/{file}.antt)", "\n".join(lines)]
    return "\n\n".join(parts) + "\n"
