"""starts.py BOARD: writes what the report says of each start on labels."""
import subprocess, sys
from itertools import combinations_with_replacement

lines = open(sys.argv[1]).read().splitlines()
labels, pebbles = int(lines[1].split()[1]), int(lines[2].split()[1])
for start in combinations_with_replacement(range(labels), pebbles):
    places = ' '.join(map(str, start))
    board = '\n'.join(['board 1', *lines[1:3], f'start {places}', *lines[4:], ''])
    told = subprocess.run(['pebbles', 'report', '--large', '/dev/stdin'], input=board, stdout=subprocess.PIPE, text=True)
    if told.returncode:
        sys.exit(told.returncode)
    print(f'{places}: {told.stdout.splitlines()[4][6:]}')
