#!/usr/bin/env python3
"""Writes the vectors of vectors.py as a batch of cases for `simulate`, and the lines that it must print: what Yosys' models show.

  cases.py answers/yosys.txt BATCH EXPECTED
"""
import struct, sys
from rows import vectors


def widths(words):
    """The widths of the output ports."""
    out, at = [], 0
    for _ in range(words[-3]):
        if words[at] == 1:
            out.append(words[at + 1])
        at += 2 + words[at + 1]
    return out


def case(words, ticks):
    heads, bits = [], []
    for given, fired, _ in ticks:
        given = [int(b) for b in given if b != "."]
        signal, edge = (0, -1) if fired == "-" else map(int, fired.split("."))
        heads += [len(given), edge + 1, signal]
        bits += given
    data = struct.pack(f"<{2 + len(heads)}I", len(ticks), len(bits), *heads) + bytes(bits) + bytes(-len(bits) % 4)
    return data + struct.pack(f"<{len(words)}I", *words)


def line(words, shown):
    ports, at = [], 0
    for width in widths(words):
        ports.append(shown[at : at + width][::-1])
        at += width
    return " ".join(ports) + "\n"


def main():
    source, batch, expected = sys.argv[1:]
    with open(batch, "wb") as b, open(expected, "w") as e:
        for _, words, ticks in vectors(source):
            data = case(words, ticks)
            b.write(struct.pack("<I", len(data) // 4) + data)
            e.writelines(line(words, shown) for _, _, shown in ticks)


if __name__ == "__main__":
    main()
