"""What mypy knows of the classes. `mypy --strict typed.py` also fails for an error that is ignored here and absent."""

from concurrent.futures import ThreadPoolExecutor
from typing import List, Optional, Tuple

import vers
from vers import parts

bits, tree = vers.RsVec([1, 0, 1]), vers.BpTree("()")

rank: int = bits.rank1(3)
item: Optional[int] = bits.get(3)
leaf: bool = tree.is_leaf(0)
symbol: Optional[int] = vers.WaveletMatrix([1], 2).quantile(0, 1, 0)
minimum: Optional[int] = vers.BinaryRmq([1]).range_min(0, 0)
ranks = bits.rank1([1, 2])
many = bits.each("rank1", [1, 2], other=3)

nearest = bits.each("successor1", [1, 2], other=-1)
position: int = bits.index(1) + vers.EliasFanoVec([3]).count(3)
growing: vers.BitVec = vers.BitVec.from_zeros(3)
growing.flip(0)
ones: int = growing.count_ones()

whole = parts.Bits(parts.Renewed(ThreadPoolExecutor), ["part"])
part_rank: int = whole.rank1(3)
element: Optional[int] = parts.Sorted(ThreadPoolExecutor(), []).successor(3)

evens = vers.EliasFanoVec([0, 2, 4])
set_of_numbers: vers.EliasFanoVec = evens & evens | evens - evens
postings = vers.Postings([1, 3])
both: vers.Postings = postings & postings | postings - postings

again: vers.RsVec = vers.RsVec.load("part")
again.save(b"part")
loaded: vers.BpTree = parts.load("part", vers.BpTree)
index = vers.InvertedIndex([0, 1, 2], [3, 3, 5])
three: vers.PlainNumbers = index.union(0, 1, 2)
one: vers.PlainNumbers = index.intersection(0)
text: vers.TextIndex = vers.TextIndex.from_fasta("genome.fa")
text = vers.TextIndex.from_fasta([b">d", b"GTAC"], step=4)
site: Optional[Tuple[str, int]] = text.site(3)
sites: List[Tuple[str, int]] = text.sites(b"TA")

wrong: str = bits.rank1(3)  # type: ignore[assignment]
bits.rank1("3")  # type: ignore[arg-type]
bits.each("rnk1", [1])  # type: ignore[arg-type]
bits.each("sucessor1", [1])  # type: ignore[arg-type]
growing.flip("0")  # type: ignore[arg-type]
tree.each("depht", [0])  # type: ignore[arg-type]
tree.each("rank1", [0])  # type: ignore[arg-type]
postings & [1]  # type: ignore[operator]
other: vers.BpTree = vers.RsVec.load("part")  # type: ignore[assignment]
maybe: int = bits.get(3)  # type: ignore[assignment]
parts.Bits(3, [])  # type: ignore[arg-type]
