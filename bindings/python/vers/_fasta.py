"""FASTA files as texts: each name, its bytes with their highest bit set, between two line feeds, and then the residues.
So a pattern of residues occurs in no name, and across no two sequences. `crates/vers_texts` defines the same text."""

import re
from bisect import bisect_left
from typing import Any, Iterable, List, Optional, Sequence, Tuple

from ._faults import Refused

#: What is before and after each name.
FEED = 10

_VISIBLE = bytes(range(33, 127))
_RESIDUES = b"ABCDEFGHIJKLMNOPQRSTUVWXYZabcdefghijklmnopqrstuvwxyz*-"
_HIGH, _LOW = bytes(128 + it % 128 for it in range(256)), bytes(it % 128 for it in range(256))
_BLANK = re.compile(rb"[ \t]")


def text_of(lines: Iterable[bytes], upper: bool) -> bytearray:
    """Returns the text of the lines of a FASTA file, with residues in `upper` case or as they are. Raises Refused
    with the number of the first line that is wrong."""
    text = bytearray()
    for number, line in enumerate(lines, 1):
        if not isinstance(line, bytes):
            raise TypeError(f"line {number} is of type {type(line).__name__}, and not bytes: open the file with 'rb'")
        line = line[:-1] if line.endswith(b"\n") else line
        symbols = _symbols_of(line[:-1] if line.endswith(b"\r") else line, not text)
        if symbols is None:
            raise Refused(f"line {number} is neither a header with a name nor residues of one")
        text += symbols.upper() if upper else symbols
    return text


def _symbols_of(line: bytes, is_first: bool) -> Optional[bytes]:
    """Returns the symbols of a line. None if it is no line of a FASTA file, whose first one is a header."""
    if not line.startswith(b">"):
        return None if line and is_first or line.translate(None, _RESIDUES) else line
    name = _BLANK.split(line[1:], 1)[0]
    return None if not name or name.translate(None, _VISIBLE) else b"\n%b\n" % name.translate(_HIGH)


def check_residues(pattern: Sequence[int]) -> None:
    """Raises Refused for a pattern that has another symbol than residues, or none."""
    if not pattern:
        raise Refused("the pattern has no residues")
    for position, symbol in enumerate(pattern):
        if symbol > 255 or symbol not in _RESIDUES:
            raise Refused(f"the symbol at position {position} is {symbol}, and residues are letters, * and -")


class Sites:
    """The sequences of the text of a FASTA file, by the positions of its line feeds."""

    def __init__(self, text: Any, feeds: Sequence[int]) -> None:
        """Raises Refused if these aren't the line feeds of such a text."""
        if text.bits_per_symbol() != 8 or len(feeds) % 2 or len(text) and (not feeds or feeds[0]):
            raise Refused("the text isn't that of a FASTA file")
        self._feeds, self._size = feeds, len(text)

    def __len__(self) -> int:
        return len(self._feeds) // 2

    def name(self, text: Any, number: int) -> str:
        """Returns the name of a sequence by its number. Raises Refused if it isn't one."""
        symbols = bytes(text[self._feeds[2 * number] + 1:self._feeds[2 * number + 1]])
        if not symbols or min(symbols) < 128:
            raise Refused("the text isn't that of a FASTA file")
        return symbols.translate(_LOW).decode("ascii")

    def ends(self, number: int) -> Tuple[int, int]:
        """Returns the start and the end of a sequence in the text."""
        after = self._feeds[2 * number + 2] if number + 1 < len(self) else self._size
        return self._feeds[2 * number + 1] + 1, after

    def site(self, position: int) -> Optional[Tuple[int, int]]:
        """Returns the number of the sequence at a position, and the offset in it. None if there is none."""
        before = bisect_left(self._feeds, position)
        if before % 2 or before == 0 or position >= self.ends(before // 2 - 1)[1]:
            return None
        return before // 2 - 1, position - self._feeds[before - 1] - 1

    def sites(self, places: Iterable[int]) -> List[Tuple[int, int]]:
        """Returns `site` for each position. Raises Refused if one is in no sequence."""
        sites = []
        for site in map(self.site, places):
            if site is None:
                raise Refused("the text isn't that of a FASTA file")
            sites.append(site)
        return sites
