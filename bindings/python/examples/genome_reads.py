"""Reads against a genome: the places of each read on both strands, in the sequences of a FASTA file."""

import random
import tempfile
from itertools import accumulate
from pathlib import Path

import vers

CODES = bytes((b"ACGT".find(letter) + 1) or 5 for letter in range(256))
COMPLEMENTS = bytes.maketrans(b"ACGT", b"TGCA")


def read_fasta(path):
    """The sequences of a file by their names, which are the first words of the lines with `>`."""
    records = [it.partition(b"\n") for it in path.read_bytes().split(b">")[1:]]
    return {head.split()[0].decode(): b"".join(lines.upper().split()) for head, _, lines in records}


def strands(read):
    """A read, and its complements in reverse, as the other strand has it."""
    return ("+", read), ("-", read.translate(COMPLEMENTS)[::-1])


class Genome:
    """All sequences as one text, each of bases from 1 to 4, of 5 for other letters, and of a 0 at its end."""

    def __init__(self, sequences):
        self.names = list(sequences)
        self.text = vers.TextIndex(b"".join(it.translate(CODES) + b"\0" for it in sequences.values()), 3)
        self.starts = vers.EliasFanoVec([0, *accumulate(len(it) + 1 for it in sequences.values())])

    def hits(self, read):
        """The strand, the sequence and the position in it of each occurrence of a read."""
        for strand, pattern in strands(read):
            for position in self.text.places(pattern.translate(CODES)):
                start = self.starts.predecessor(position)
                yield strand, self.names[self.starts.rank(start)], position - start


def main(path, draw):
    """Compares the hits in a genome of random bases with those of a plain search."""
    made = {f"chr{k}": bytes(draw.choices(b"ACGTN", [9, 9, 9, 9, 1], k=2000 + k)) for k in range(3)}
    records = [b">%s made\n%s\n%s\n" % (it.encode(), made[it][:999].lower(), made[it][999:]) for it in made]
    path.write_bytes(b"".join(records))
    assert read_fasta(path) == made and strands(b"AACGN")[1] == ("-", b"NCGTT")
    genome, hits = Genome(read_fasta(path)), []
    for length in [5, 8, 25] * 20:
        start = draw.randrange(2000 - length) * draw.randrange(2)
        read = strands(draw.choice([*made.values()])[start:start + length])[draw.randrange(2)][1]
        plain = [(strand, name, k) for strand, it in strands(read) for name, bases in made.items()
                 for k in range(len(bases)) if bases.startswith(it, k)]
        assert list(genome.hits(read)) == plain
        hits += plain
    print(f"60 reads have {len(hits)} hits, {sum(strand == '-' for strand, *_ in hits)} of them on the other strand")


if __name__ == "__main__":
    with tempfile.TemporaryDirectory() as folder:
        main(Path(folder, "genome.fa"), random.Random(6))
