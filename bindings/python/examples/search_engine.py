"""A search engine over documents: AND, OR and NOT of words by their postings, phrases by an index of the whole text."""

import bisect
import re
from functools import reduce
from itertools import product
from operator import and_, or_, sub

import vers

DOCUMENTS = [
    "The library keeps a succinct index of a text",
    "An index of bits answers rank and select in constant time",
    "A wavelet matrix answers rank and select of symbols",
    "A text index finds the places of a pattern in a text",
]


def words_of(text):
    """The words of a text, in lower case."""
    return re.findall(r"\w+", text.lower())


class Engine:
    """Documents, with the list of those that have a word, and all of them as one text of words."""

    def __init__(self, documents):
        pages = [words_of(it) for it in documents]
        self.numbers = {word: k for k, word in enumerate(sorted({word for page in pages for word in page}), 1)}
        having = {word: [k for k, page in enumerate(pages) if word in page] for word in self.numbers}
        # the cost is the length: `cheapest` answers the shortest document of a range
        self.postings = {word: vers.Postings(found, [len(pages[k]) for k in found]) for word, found in having.items()}
        # a 0 ends each document, so that no phrase goes on in the next one
        text = [number for page in pages for number in [*map(self.numbers.get, page), 0]]
        self.text = vers.TextIndex(text, 16)
        self.ends = [k for k, number in enumerate(text) if number == 0]

    def found(self, combine, *words):
        """The documents of some words: by `and_` those that have all, by `or_` any, and by `sub` the first alone."""
        return list(reduce(combine, (self.postings[it] for it in words)))

    def phrase(self, text):
        """The documents that have words one after another."""
        places = self.text.places([self.numbers[it] for it in words_of(text)])
        return sorted({bisect.bisect_left(self.ends, position) for position in places})


if __name__ == "__main__":
    engine = Engine(DOCUMENTS)
    having = {word: {k for k, it in enumerate(DOCUMENTS) if word in words_of(it)} for word in engine.numbers}
    for one, other, combine in product(having, having, (and_, or_, sub)):
        assert engine.found(combine, one, other) == sorted(combine(having[one], having[other]))
    assert engine.phrase("rank and select") == [k for k, it in enumerate(DOCUMENTS) if "rank and select" in it]
    print("rank, select and symbols:", engine.found(and_, "rank", "select", "symbols"))
    print("wavelet or pattern:", engine.found(or_, "wavelet", "pattern"))
    print("text without pattern:", engine.found(sub, "text", "pattern"))
    print('"rank and select":', engine.phrase("rank and select"))
    print("the shortest with a text:", engine.postings["text"].cheapest(0, len(DOCUMENTS)))
