"""A column of a table by dictionary codes: counts of a value in any range of rows, its rows, and the values of a range."""

import random

import vers

CITIES = ["Basel", "Bern", "Chur", "Genf", "Lugano", "Zug"]


class Column:
    """Values as codes in alphabetical order, of as few bits as there need to be."""

    def __init__(self, values):
        self.names = sorted(set(values))
        self.codes = {name: k for k, name in enumerate(self.names)}
        width = max(1, (len(self.names) - 1).bit_length())
        self.rows = vers.WaveletMatrix([self.codes[it] for it in values], width)

    def count(self, name, start, end):
        """How many rows of a range have a value."""
        return self.rows.rank_range(start, end, self.codes[name])

    def counts(self, start, end):
        """How many rows of a range have each value, by one call."""
        return dict(zip(self.names, self.rows.rank_range(start, end, range(len(self.names)))))

    def row(self, name, number):
        """The row in which a value is for the given time. None if it isn't there so often."""
        return self.rows.select(number, self.codes[name])

    def next_value(self, start, end, name):
        """The least value of a range at or after a name. None if there is none."""
        code = self.rows.successor(start, end, next(k for k, it in enumerate(self.names) if it >= name))
        return None if code is None else self.names[code]


def main(rows=10_000):
    """Compares the column with the plain list."""
    values = random.Random(3).choices(CITIES, [5, 4, 3, 3, 2, 1], k=rows)
    column = Column(values)
    for start, end in ((0, rows), (100, 200), (5000, 5001)):
        assert column.counts(start, end) == {name: values[start:end].count(name) for name in column.names}
    assert column.row("Bern", 99) == [k for k, it in enumerate(values) if it == "Bern"][99]
    print("rows 100 to 200:", column.counts(100, 200))
    print("Bern for the 100th time: row", column.row("Bern", 99))
    print("at or after C in rows 0 to 10:", column.next_value(0, 10, "C"), "of", sorted(set(values[:10])))
    print("bits a row:", column.rows.bits_per_element())


if __name__ == "__main__":
    main()
