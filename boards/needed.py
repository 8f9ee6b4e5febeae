"""needed.py BOARD: drops labels, the greatest first, while some configuration still lasts for ever, and writes those that are left."""
import subprocess, sys

lines = [line.split() for line in open(sys.argv[1])]
labels, pebbles = int(lines[1][1]), int(lines[2][1])
pairs = [(int(line[1]), int(line[2])) for line in lines if line[0] == 'beats']

def lasts(kept):
    number = {label: place for place, label in enumerate(kept)}
    beats = [f'beats {number[x]} {number[y]}' for x, y in pairs if x in number and y in number]
    board = '\n'.join(['board 1', f'labels {len(kept)}', f'pebbles {pebbles}', 'start' + ' 0' * pebbles, *beats, 'end', ''])
    told = subprocess.run(['pebbles', 'report', '--large', '/dev/stdin'], input=board, stdout=subprocess.PIPE, text=True, check=True)
    return told.stdout.splitlines()[-2] != 'forever: 0'

kept = list(range(labels))
if not lasts(kept):
    sys.exit('no configuration lasts for ever')
for label in reversed(range(labels)):
    fewer = [other for other in kept if other != label]
    kept = fewer if fewer and lasts(fewer) else kept
print(*kept)
