#!/usr/bin/env python3
"""Reads a VCD file strictly and prints each variable's value at each time.

  vcd_check.py [--step N] [--only PREFIX] [--plain] [--scopes] [--xz] [FILE]

A line for each time: `#TIME`, then the values in the order of declaration, highest bit first, one space apart; before them a line with the names.
  --step N       every time must be a multiple of N; times that are left out because nothing changed are printed too
  --only PREFIX  only variables whose names begin so
  --plain        no line of names, no times: with --only the lines of `simulate` again
  --scopes       more than one scope is allowed
  --xz           values may have x and z

Without FILE standard input is read. Exit status 1 at a fault, said as `line N: what`. Stricter than the standard: every value has as many digits as its
variable has bits, one-bit values stand without `b` and space, $dumpvars comes first and gives every variable exactly once, no variable changes twice at
one time, no identifier and no name is declared twice, and there is one scope.
"""
import argparse
import re
import sys

UNITS = ("s", "ms", "us", "ns", "ps", "fs")
TYPES = ("wire", "reg", "integer", "logic", "supply0", "supply1", "tri", "triand", "trior", "trireg", "tri0", "tri1", "wand", "wor", "parameter", "time")
SCOPES = ("module", "task", "function", "begin", "fork")


class Fault(Exception):
    def __init__(self, line, why):
        super().__init__(f"line {line}: {why}")


class Var:
    def __init__(self, name, width):
        self.name, self.width = name, width


class Tokens:
    def __init__(self, text):
        self.list = [(word, n) for n, line in enumerate(text.split("\n"), 1) for word in line.split()]
        self.at = 0
        # the last line that has something
        self.line = self.list[-1][1] if self.list else 1

    def next(self):
        if self.at == len(self.list):
            return None, self.line
        self.at += 1
        return self.list[self.at - 1]

    def body(self, command, line):
        """What stands between a command and its $end."""
        out = []
        while True:
            word, at = self.next()
            if word is None:
                raise Fault(at, f"the file ends within the {command} of line {line}")
            if word == "$end":
                return out
            # an identifier may begin with $, but a keyword in here is a forgotten $end
            if word in KEYWORDS and command != "$comment":
                raise Fault(at, f"{word} within the {command} of line {line}: its $end is missing")
            out.append(word)


KEYWORDS = ("$date", "$version", "$comment", "$timescale", "$scope", "$var", "$upscope", "$enddefinitions", "$dumpvars", "$dumpall", "$dumpon", "$dumpoff")


def header(tokens, scopes_allowed):
    """The declarations: identifier to variable, in order."""
    variables, names, scale, path, scopes = {}, set(), None, [], 0
    while True:
        word, line = tokens.next()
        if word is None:
            raise Fault(line, "the file ends before $enddefinitions")
        if word not in KEYWORDS or word.startswith("$dump"):
            raise Fault(line, f"'{word}' before $enddefinitions")
        body = tokens.body(word, line)
        if word == "$timescale":
            if scale is not None:
                raise Fault(line, "a second $timescale")
            scale = "".join(body)
            m = re.fullmatch(r"(1|10|100)([a-z]+)", scale)
            if not m or m[2] not in UNITS:
                raise Fault(line, f"the timescale '{' '.join(body)}' is not 1, 10 or 100 of {', '.join(UNITS)}")
        elif word == "$scope":
            if len(body) != 2 or body[0] not in SCOPES:
                raise Fault(line, "a $scope has a type (module, ...) and a name")
            path.append(body[1])
            scopes += 1
            if scopes > 1 and not scopes_allowed:
                raise Fault(line, "a second scope")
        elif word == "$upscope":
            if body:
                raise Fault(line, "an $upscope has no words")
            if not path:
                raise Fault(line, "an $upscope without a scope")
            path.pop()
        elif word == "$var":
            declare(variables, names, path, body, line)
        elif word == "$enddefinitions":
            if body:
                raise Fault(line, "$enddefinitions has no words")
            if scale is None:
                raise Fault(line, "no $timescale")
            if path:
                raise Fault(line, f"scope {path[-1]} is still open")
            if not scopes:
                raise Fault(line, "no $scope")
            return variables


def declare(variables, names, path, body, line):
    if len(body) not in (4, 5):
        raise Fault(line, "a $var has a type, a width, an identifier, a name and perhaps a range")
    kind, width, identifier, name = body[:4]
    if not path:
        raise Fault(line, "a $var outside every scope")
    if kind not in TYPES:
        raise Fault(line, f"the type '{kind}' is none of {', '.join(TYPES)}")
    if not re.fullmatch(r"[1-9]\d*", width):
        raise Fault(line, f"the width '{width}' is no number from 1 on")
    if not all(33 <= ord(c) <= 126 for c in identifier):
        raise Fault(line, f"the identifier '{identifier}' has a character that is not printable ASCII")
    if identifier in variables:
        raise Fault(line, f"the identifier {identifier} is that of {variables[identifier].name} too")
    # a range may hang on the name or stand behind it
    m = re.fullmatch(r"([^\[]+)(\[.*)?", name)
    if not m or (m[2] and len(body) == 5):
        raise Fault(line, f"'{name}' is no name")
    span = m[2] or (body[4] if len(body) == 5 else None)
    if span is not None:
        r = re.fullmatch(r"\[(\d+)(?::(\d+))?\]", span)
        if not r:
            raise Fault(line, f"'{span}' is no range")
        if r[2] is not None and abs(int(r[1]) - int(r[2])) + 1 != int(width) or r[2] is None and width != "1":
            raise Fault(line, f"the range {span} has not the width {width}")
    full = ".".join(path[1:] + [m[1]] if len(path) > 1 else [m[1]])
    # one bit of a vector may be a variable of its own
    key = full + (span if span and ":" not in span else "")
    if key in names:
        raise Fault(line, f"the name {key} is declared twice")
    names.add(key)
    variables[identifier] = Var(key, int(width))


def change(tokens, word, line, variables, digits):
    """A value change: identifier and digits."""
    if word[0] in "bB":
        value = word[1:]
        identifier, at = tokens.next()
        if identifier is None or at != line:
            raise Fault(line, f"no identifier behind '{word}'")
        if identifier not in variables:
            raise Fault(line, f"unknown identifier '{identifier}'")
        var = variables[identifier]
        if var.width == 1:
            raise Fault(line, f"{var.name} has one bit: its value stands without `b` and space")
        if len(value) != var.width:
            raise Fault(line, f"{len(value)} digits for {var.name}, which has {var.width} bits")
    elif word[0] in "01xXzZ":
        value, identifier = word[0], word[1:]
        if not identifier:
            raise Fault(line, f"no identifier behind '{word}'")
        if identifier not in variables:
            raise Fault(line, f"unknown identifier '{identifier}'")
        var = variables[identifier]
        if var.width != 1:
            raise Fault(line, f"one digit for {var.name}, which has {var.width} bits")
    else:
        raise Fault(line, f"'{word}' is no value change, no time and no command")
    value = value.lower()
    for c in value:
        if c not in digits:
            raise Fault(line, f"the digit '{c}' in the value of {var.name}")
    return identifier, value


def parse(text, step=None, xz=False, scopes=False):
    """The variables, and for each time their values."""
    tokens = Tokens(text)
    variables = header(tokens, scopes)
    digits = "01xz" if xz else "01"
    values, time, rows = None, None, []
    at_this_time = set()

    def row(now):
        """What stands until the time `now` (None: the end)."""
        t = 0 if time is None else time
        state = [values[i] for i in variables]
        rows.append((t, state))
        if step and now is not None:
            rows.extend((u, state) for u in range(t + step, now, step))

    while True:
        word, line = tokens.next()
        if word is None:
            break
        if word[0] == "#":
            if not re.fullmatch(r"#\d+", word):
                raise Fault(line, f"'{word}' is no time")
            now = int(word[1:])
            if time is not None and now <= time:
                raise Fault(line, f"the time {now} is not above the time {time} before it")
            if step and now % step:
                raise Fault(line, f"the time {now} is no multiple of {step}")
            if time is not None:
                if values is None:
                    raise Fault(line, "no $dumpvars at the first time")
                row(now)
                at_this_time = set()
            elif values is not None and now > 0:
                row(now)
                at_this_time = set()
            time = now
        elif word == "$dumpvars":
            if values is not None:
                raise Fault(line, "a second $dumpvars")
            values = {}
            while True:
                word, at = tokens.next()
                if word is None:
                    raise Fault(at, f"the file ends within the $dumpvars of line {line}")
                if word == "$end":
                    break
                identifier, value = change(tokens, word, at, variables, digits)
                if identifier in values:
                    raise Fault(at, f"{variables[identifier].name} has a value twice in $dumpvars")
                values[identifier] = value
            for identifier, var in variables.items():
                if identifier not in values:
                    raise Fault(at, f"no value for {var.name} in $dumpvars")
            at_this_time = set(values)
        elif word == "$comment":
            tokens.body(word, line)
        elif word in KEYWORDS or word == "$end":
            raise Fault(line, f"'{word}' among the value changes")
        else:
            if values is None:
                raise Fault(line, f"'{word}' before $dumpvars")
            identifier, value = change(tokens, word, line, variables, digits)
            if identifier in at_this_time:
                raise Fault(line, f"{variables[identifier].name} changes twice at time {time or 0}")
            at_this_time.add(identifier)
            values[identifier] = value
    if values is None:
        raise Fault(tokens.line, "no $dumpvars")
    row(None)
    return list(variables.values()), rows


def main():
    a = argparse.ArgumentParser(description="Reads a VCD file strictly and prints each variable's value at each time.")
    a.add_argument("file", nargs="?")
    a.add_argument("--step", type=int, metavar="N", help="every time must be a multiple of N")
    a.add_argument("--only", default="", metavar="PREFIX", help="only variables whose names begin so")
    a.add_argument("--plain", action="store_true", help="values alone")
    a.add_argument("--scopes", action="store_true", help="more than one scope is allowed")
    a.add_argument("--xz", action="store_true", help="values may have x and z")
    a = a.parse_args()
    try:
        if a.file:
            with open(a.file, encoding="utf-8") as f:
                text = f.read()
        else:
            text = sys.stdin.read()
        variables, rows = parse(text, a.step, a.xz, a.scopes)
    except (Fault, OSError, UnicodeDecodeError) as e:
        print(f"vcd_check.py: {e}" if not isinstance(e, Fault) else e, file=sys.stderr)
        return 1
    chosen = [k for k, v in enumerate(variables) if v.name.startswith(a.only)]
    if not a.plain:
        print("time " + " ".join(variables[k].name for k in chosen))
    for time, values in rows:
        print(("" if a.plain else f"#{time} ") + " ".join(values[k] for k in chosen))
    return 0


if __name__ == "__main__":
    sys.exit(main())
