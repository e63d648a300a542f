#!/usr/bin/env bash
# Times `world` on 100,000 lines of strokes that are said and placed, on 20,000 strokes that two
# clients say and take, with a picture at the end, on 64 MiB of empty lines, the most that counts, and
# on 20,000 lines with 200 resets of a canvas of 200 by 200 pixels.
. "$(dirname "$0")/common.sh"
python3 - "$work" <<'PY'
import sys
size, layer = '8100000000000000020000000100000000', '820101000000'
fill, point = '8901010100000000000000000000000100000001ffff0000', '80'
def start(out, joins):
    for name in joins:
        print('join', name, file=out)
    for piece in (size, layer):
        print('say 1', piece, file=out)
        print('up 1', file=out)
with open(sys.argv[1] + '/said', 'w') as out:
    start(out, ['ann'])
    for _ in range(50000):
        print('say 1', fill, file=out)
        print('up 1', file=out)
with open(sys.argv[1] + '/taken', 'w') as out:
    start(out, ['ann', 'bob'])
    for n in range(20000):
        client = 1 + n % 2
        for piece in (point, fill):
            print('say', client, piece, file=out)
            print('up', client, file=out)
        print('take 1\ntake 1\ntake 2\ntake 2', file=out)
    print('view 1', file=out)
with open(sys.argv[1] + '/empty', 'w') as out:
    for _ in range(64):
        out.write('\n' * 1048576)
with open(sys.argv[1] + '/resets', 'w') as out:
    print('join ann\nsay 1 8100000000000000c8000000c800000000\nup 1', file=out)
    print('say 1 ' + layer + '\nup 1', file=out)
    # a round dab in each of the 16 tiles, no two of one size
    steps = (['3800'] * 3 + ['0038'] + ['c800'] * 3 + ['0038']) * 2
    dabs = ''.join(step + '%02x80' % (20 + n) for n, step in enumerate(['0000'] + steps[:15]))
    print('say 1 950101' + '0000001e' * 2 + '80409001' + dabs + '\nup 1', file=out)
    print('take 1\n' * 6, end='', file=out)
    for n in range(200):
        # 20 messages of a reset, and 24 entries with which the epoch opens
        lines = ['say 1 ' + point, 'up 1', 'take 1', 'say 1 89010101' + '%08x' % (n % 99)
                 + '0000000300000063000000630a%02x4080' % n, 'up 1', 'take 1', 'reset 1']
        lines += ['up 1'] * 20 + ['take 1'] * 24 + ['up 1']
        lines += ['say 1 ' + point, 'up 1', 'take 1'] * 15 + ['conf 1', 'view 1', 'snap 1']
        print('\n'.join(lines[:100]), file=out)
PY
time_all world said taken empty resets
