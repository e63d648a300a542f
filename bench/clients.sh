#!/usr/bin/env bash
# Times `world` on clients that are shown often or have much unanswered: 2,000 and 4,000 points with a
# fill and a picture after each, 100,000 fills anywhere that two clients say and take, a point with
# 20,000 fills and ten undos and redos of it, and 10,000 fills of one client beside 10,000 of another
# that never meet them, if none or 100 are unanswered all the time. Then 40,000 fills of one client,
# and 20,000 of three clients, who says each by chance: one keeps the tiles of its view, three don't.
. "$(dirname "$0")/common.sh"
python3 - "$work" <<'PY'
import random
import sys
random.seed(7)
layer, point = '820101000000', '80'
def lines(name, joins, side):
    out = open(f'{sys.argv[1]}/{name}', 'w')
    say = lambda *texts: print('\n'.join(texts), file=out)
    say(*(f'join {it}' for it in joins), f'say 1 8100000000{side}{side}00000000', 'up 1', f'say 1 {layer}', 'up 1')
    # the mark, the Joins, the Owners entry, and two commands
    for n in range(len(joins)):
        say(*[f'take {n + 1}'] * (len(joins) + 4))
    return say
def fill(x, y, side):
    return '89010101' + ''.join('%08x' % n for n in (x, y, side, side)) + 'ff%02x%02x80' % (x % 256, y % 256)
def anywhere(width=4080):
    return fill(random.randrange(width), random.randrange(4080), 16)
for n in (2000, 4000):
    say = lines(f'shown-{n}', ['ann'], '00000002')
    for k in range(n):
        say(f'say 1 {point}', 'up 1', f'say 1 {fill(k % 2, 0, 1)}', 'up 1', 'take 1', 'take 1', 'view 1')
say = lines('anywhere', ['ann', 'bob'], '00001000')
for k in range(100000):
    who = 1 + k % 2
    say(f'say {who} {anywhere()}', f'up {who}', 'take 1', 'take 2')
say = lines('undone', ['ann'], '00001000')
say(f'say 1 {point}', 'up 1', 'take 1')
for k in range(20000):
    say(f'say 1 {anywhere()}', 'up 1', 'take 1')
for k in range(10):
    say('say 1 ff0000', 'up 1', 'take 1', 'say 1 ff0001', 'up 1', 'take 1')
for name, held in (('answered', 0), ('held', 100)):
    say = lines(name, ['ann', 'bob'], '00001000')
    for k in range(held):
        say(f'say 1 {anywhere(2000)}')
    for k in range(10000):
        say(f'say 1 {anywhere(2000)}', 'up 1', f'say 2 {fill(2048 + random.randrange(2000), k % 4080, 16)}', 'up 2')
        say('take 1', 'take 1', 'take 2', 'take 2')
for name, count in (('alone', 1), ('three', 3)):
    say = lines(name, ['ann', 'bob', 'eve'][:count], '00001000')
    for k in range(40000 if count == 1 else 20000):
        who = random.randint(1, count)
        say(f'say {who} {anywhere()}', f'up {who}', *(f'take {n + 1}' for n in range(count)))
PY
time_all world shown-2000 shown-4000 anywhere undone answered held alone three
