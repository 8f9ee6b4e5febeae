"""others.py PROOF: writes a line for each list of the others' labels, with the answer of the labeller's rows."""
import sys

table = {}
for row in [line.split() for line in open(sys.argv[1]) if ' take ' in line]:
    count = len(row) // 2 - 2
    places, answers = row[1:1 + count], row[-count:]
    table.update({(*places[:k], *places[k + 1:]): answers[k] for k in range(count)})
for others, label in table.items():
    print(*others, '->', label)
