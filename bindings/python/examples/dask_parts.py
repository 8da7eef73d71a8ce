"""Symbols in parts on the workers of a Dask cluster, here processes of one machine: 16 files, and one list."""

import os
import random
import tempfile

import vers
from distributed import Client, LocalCluster
from vers import parts


def made(path, seed):
    """Saves a part of random symbols, as a worker does that has the data, and returns its path."""
    symbols = random.Random(seed).choices(range(256), k=10_000)
    parts.save(path, vers.WaveletMatrix(symbols, 8))
    return path


def main(folder, client):
    """Asks the whole list, and compares answers with each other."""
    paths = [os.path.join(folder, f"{k}.vers") for k in range(16)]
    whole = parts.Symbols(client, client.gather(client.map(made, paths, range(16))))
    median = whole.quantile(0, len(whole), len(whole) // 2)
    position = whole.select(100, median)
    assert whole.get(position) == median and whole.rank([position, position + 1], median) == [100, 101]
    assert sum(whole.count(symbol) for symbol in range(256)) == len(whole)
    print(f"the median of {len(whole)} symbols is {median}, and its occurrence 100 is at {position}")


if __name__ == "__main__":
    with tempfile.TemporaryDirectory() as directory, LocalCluster(n_workers=2, dashboard_address=None) as cluster:
        with Client(cluster) as dask:
            main(directory, dask)
