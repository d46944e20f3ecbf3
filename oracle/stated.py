"""What clock-enables.py and repeats.py share: small netlists, alone for lowering or with ticks for the run, written with the answers that stand beside them.
Netlists are texts of tools/words.py; a `/` ends a line."""
import os, struct, sys

sys.path.insert(0, os.path.join(os.path.dirname(os.path.abspath(__file__)), "..", "tools"))
import words as w

ROOMY = [16384] * 3


def lines(text):
    return text.replace(" / ", "\n")


def netlist(text):
    return w.assemble(lines(text))


class Lower:
    """Netlists with the lengths of their lists, as `bulk` writes them, and their answers."""

    def __init__(self):
        self.batch, self.stated = [], []

    def case(self, text, answer, lengths=ROOMY):
        words = netlist(text)
        self.batch += [len(words), *lengths, *words]
        self.stated.append(answer)

    def write(self, batch, stated):
        with open(batch, "wb") as f:
            f.write(struct.pack(f"<{len(self.batch)}I", *self.batch))
        with open(stated, "w") as f:
            f.writelines(line + "\n" for line in self.stated)


def write_ticks(cases, batch, expected):
    """A case is a netlist and its ticks, each with what fires, the bits and the line; or a netlist and its refusal."""
    with open(batch, "wb") as b, open(expected, "w") as e:
        for text, rows in cases:
            if isinstance(rows, str):
                rows = [("rise w0", "0", rows)]
            ticks = [f"tick {fired} {bits}" for fired, bits, _ in rows]
            data = w.assemble_ticks("\n".join([lines(text), *ticks]))
            b.write(struct.pack("<I", len(data) // 4) + data)
            e.writelines(line + "\n" for _, _, line in rows)


def main(lower_cases, tick_cases):
    which, batch, answers = sys.argv[1:]
    if which == "ticks":
        write_ticks(tick_cases(), batch, answers)
    else:
        lower_cases().write(batch, answers)
