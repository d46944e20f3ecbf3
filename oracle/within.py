#!/usr/bin/env python3
"""within.py BATCH ANSWERS OUT-BATCH OUT-ANSWERS: keeps the netlists of a batch of `bulk` whose lists have at most
65,536 words, which is what the program cases_lower lends, and says how many there are."""
import array, sys

batch, answers, out_batch, out_answers = sys.argv[1:]
words = array.array('I')
with open(batch, 'rb') as f:
    words.frombytes(f.read())
lines = open(answers).read().split('\n')
kept, texts, at, number = array.array('I'), [], 0, 0
while at < len(words):
    end = at + 4 + words[at]
    if max(words[at + 1:at + 4]) <= 65536 and words[at] <= 16384:
        kept.extend(words[at:end])
        texts.append(lines[number] + '\n')
    at, number = end, number + 1
with open(out_batch, 'wb') as f:
    f.write(kept.tobytes())
open(out_answers, 'w').writelines(texts)
print(number, len(texts))
