"""Sets of IPv4 addresses as ranges: is an address in the set, and how many addresses of the set are below it?"""

import random
from ipaddress import IPv4Address, IPv4Network, collapse_addresses
from itertools import accumulate

import vers

PRIVATE = ["10.0.0.0/8", "172.16.0.0/12", "192.168.0.0/16", "127.0.0.0/8", "169.254.0.0/16"]


class Ranges:
    """Ranges that don't overlap: where they start, and how many addresses all before have."""

    def __init__(self, networks):
        ranges = list(collapse_addresses(map(IPv4Network, networks)))
        self.starts = vers.EliasFanoVec([int(it.network_address) for it in ranges])
        self.sizes = vers.EliasFanoVec([0, *accumulate(it.num_addresses for it in ranges)])

    def below(self, address):
        """How many addresses of the set are below an address."""
        number = self.starts.rank(address)
        if number == 0:
            return 0
        full, size = self.sizes[number - 1], self.sizes.delta(number)
        return full + min(address - self.starts[number - 1], size)

    def __contains__(self, address):
        return self.below(int(address) + 1) > self.below(int(address))

    def __len__(self):
        return self.sizes[-1]

    def inside(self, addresses):
        """Whether each of many addresses is in the set, by one call for all."""
        ranks = self.starts.rank([it + 1 for it in addresses])
        ends = [self.starts[k] + self.sizes.delta(k + 1) for k in range(len(self.starts))]
        return [rank > 0 and it < ends[rank - 1] for it, rank in zip(addresses, ranks)]


def main():
    """Compares the set with the module ipaddress."""
    ranges = Ranges(PRIVATE)
    draw = random.Random(4)
    first = int(IPv4Address("10.0.0.0"))
    addresses = [*range(first - 9, first + 9), *(draw.randrange(1 << 32) for _ in range(2000))]
    wanted = [any(IPv4Address(it) in IPv4Network(net) for net in PRIVATE) for it in addresses]
    assert ranges.inside(addresses) == wanted == [it in ranges for it in addresses]
    print(f"{len(ranges)} addresses in {len(ranges.starts)} ranges, {sum(wanted)} of {len(wanted)} drawn")
    for text in ("10.1.2.3", "11.0.0.0", "192.168.255.255"):
        print(text, "is in the set" if IPv4Address(text) in ranges else "isn't")


if __name__ == "__main__":
    main()
