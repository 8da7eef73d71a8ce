#!/usr/bin/env python3
"""Prints the functions of a program whose machine code keeps a counter: counters.py PROGRAM

A counter stays at the greatest number once it has come to it, so its machine code is a sum, a choice (`cmov`) and a
store of what was chosen. A line tells how many such stores a function has. It needs objdump.
"""
import re
import subprocess
import sys
from collections import Counter


def stores(text):
    """Yields the name of a function for each store of what one of the two instructions before it has chosen."""
    name, chosen = "", ["", "", ""]
    for line in text.splitlines():
        if begins := re.match(r"[0-9a-f]+ <(.*)>:", line):
            name, chosen = re.sub(r"::<#\w+>", "", begins[1]), ["", "", ""]
        elif "\t" in line:
            instruction = line.split("\t")[1]
            choice = re.match(r"cmov\w+ +(\w+),", instruction)
            store = re.match(r"mov +QWORD PTR \[(?!rsp).*\],(\w+)", instruction)
            if store and store[1] in chosen[-2:]:
                yield name
            chosen = [*chosen[1:], choice[1] if choice else ""]


def main():
    """Prints a line for each function, those with the most stores first."""
    command = ["objdump", "-d", "-C", "--no-show-raw-insn", "-M", "intel", sys.argv[1]]
    text = subprocess.run(command, check=True, capture_output=True, text=True).stdout
    for name, count in Counter(stores(text)).most_common():
        print(f"{count:4} {name}")


if __name__ == "__main__":
    main()
