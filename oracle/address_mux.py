#!/usr/bin/env python3
"""The Rust's balanced_address_mux (struo-celox/src/lib.rs), transliterated: prints crates/cases_nodes/stdout."""


def balanced_address_mux(level, zero, width):
    records = []

    def add(record):
        records.append(record)
        return len(records) - 1

    while len(level) > 1:
        joined, left = [], iter(level)
        for first in left:
            second = next(left, None)
            if second is None:
                joined.append(first)
                break
            matched = add([5, 1, first[0], second[0]])
            joined.append((matched, add([7, width, second[0], second[1], first[1]])))
        level = joined
    end = add([7, width, level[0][0], level[0][1], zero]) if level else zero
    return [word for record in records for word in [len(record) + 1, *record]] + [end]


for n in (0, 1, 3, 5, 9):
    # the program lends room for eight nodes
    nodes = [(10 + i, 20 + i) for i in range(n)]
    line = " ".join(map(str, balanced_address_mux(nodes, 99, 4))) if n <= 8 else "refused"
    print(line)  # on a slice of nodes
    print(line)  # on number slices
