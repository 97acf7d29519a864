"""Request 8: unreserved high requests, and the line `(strict)`. Each log that stands here was worked out before the model was run on its
text. Most lists of events have two: without `(strict)`, and with it, where each line behind it has a number more.
"""
import random

from model.figures import LONGEST_PACKETS

from . import reservations, trials
from .case import EXAMPLE, Cases, as_bytes, example, figures, framed, lines_of, plan, strict, two
from .random_texts import random_events, random_plan

cases = Cases()


def default(name, purpose, text, log):
    cases.worked(f'{name}-default', f'{purpose}; without (strict)', text, log)


def both(name, purpose, text, by_default, by_strict):
    default(name, purpose, text, by_default)
    cases.worked(f'{name}-strict', f'{purpose}; with (strict)', strict(text), by_strict)


# On document 01's plan the first event is line 12 without the line and 13 with it; nodes 2 and 3 stand below port 2, node 4 at port 3.

both('laptop', 'a node that calls everything high and has reserved nothing: it has its turns as a normal one, or none', example('''
(high 0 1 512)
(high 100 1 600)
(normal 2000 2 512)
(high 2000 1 700)
(until 10000)
'''), '''
(nodes 4 hubs 2)
(grant 0 1 1 1512 0 0)
(grant 1512 1 1 3112 0 1412)
(grant 3112 2 1 4624 1 1112)
(grant 4624 1 1 6324 1 2624)
(rest 6324 0)
''', '''
(nodes 4 hubs 2)
(refused 13 16)
(refused 14 16)
(refused 16 16)
(grant 2000 2 1 3512 1 0)
(rest 3512 1)
''')

default('row-16', 'no reservation; one made in this frame; b above the b in force, which alone is refused', reservations.ROW_16, '''
(nodes 4 hubs 2)
(grant 0 1 1 1512 0 0)
(grant 1512 2 1 6512 1 1512)
(rest 6512 1)
(grant 99999 2 1 104999 3 0)
(refused 17 16)
(grant 104999 2 2 109999 2 4999)
(grant 109999 1 1 111511 1 9999)
''')

default('m7', 'lengths that pass row 15 are taken as normal', trials.M7, '''
(nodes 4 hubs 2)
(refused 12 15)
(refused 14 15)
(refused 16 15)
(refused 18 15)
(refused 20 15)
(refused 23 15)
(grant 0 1 1 1512 0 0)
(grant 1512 2 1 14512 1 1512)
(grant 14512 3 1 27512 0 14512)
(rest 27512 1)
''')

# The n in force at t

both('reserved-at-the-start', 'the clock is in frame 0, and at t, the start of frame 1, a reservation comes into force: high', example('''
(reserve 0 2 1 4000)
(until 50000)
(high 100000 2 4000)
(normal 100000 1 512)
(until 110000)
'''), *['''
(nodes 4 hubs 2)
(grant 100000 2 2 105000 1 0)
(grant 105000 1 1 106512 1 5000)
(rest 106512 0)
'''] * 2)

both('released-at-the-start', 'the clock is in frame 1, and at t, the start of frame 2, a release comes into force: n is 0', example('''
(reserve 0 2 1 4000)
(reserve 100000 2 0 0)
(high 150000 2 4000)
(until 160000)
(high 200000 2 4000)
(normal 200000 1 512)
(until 210000)
'''), '''
(nodes 4 hubs 2)
(grant 150000 2 2 155000 1 0)
(rest 155000 1)
(grant 200000 1 1 201512 0 0)
(grant 201512 2 1 206512 1 1512)
(rest 206512 1)
''', '''
(nodes 4 hubs 2)
(grant 150000 2 2 155000 1 0)
(rest 155000 1)
(refused 17 16)
(grant 200000 1 1 201512 0 0)
(rest 201512 0)
''')

default(
    'refused-starts-no-frame', 'a high event taken as normal starts the next frame: the held request turns normal, and a reserve is late',
    reservations.NEXT_FRAME_HIGH, '''
(nodes 4 hubs 2)
(grant 100000 3 2 105000 1 0)
(rest 105000 1)
(refused 17 11)
(grant 200000 1 1 201512 0 0)
(grant 201512 3 1 206512 1 1512)
(rest 206512 1)
''')

# The rows before 16, and 16 of a reserved node

both('rows-before-16', 'rows 11, 13 and 15 come before, for an unreserved node too', example('''
(until 5)
(high 4 1 511)
(high 5 0 511)
(high 5 5 512)
(high 5 1 511)
(high 5 1 12001)
(high 5 1 0)
(high 5 1 12000)
(high 5 2 512)
(until 20000)
'''), '''
(nodes 4 hubs 2)
(refused 13 11)
(refused 14 13)
(refused 15 13)
(refused 16 15)
(refused 17 15)
(refused 18 15)
(grant 5 1 1 13005 0 0)
(grant 13005 2 1 14517 1 13000)
(rest 14517 1)
''', '''
(nodes 4 hubs 2)
(refused 14 11)
(refused 15 13)
(refused 16 13)
(refused 17 15)
(refused 18 15)
(refused 19 15)
(refused 20 16)
(refused 21 16)
''')

both('too-long', "a reserved node's high request longer than the b in force is refused, also when its share is spent", example('''
(reserve 0 3 1 4000)
(high 100000 3 4001)
(high 100000 3 12000)
(high 100000 3 4000)
(high 100000 4 4001)
(high 102000 3 4001)
(until 120000)
'''), '''
(nodes 4 hubs 2)
(refused 13 16)
(refused 14 16)
(grant 100000 3 2 105000 1 0)
(refused 17 16)
(grant 105000 4 1 110001 1 5000)
(rest 110001 0)
''', '''
(nodes 4 hubs 2)
(refused 14 16)
(refused 15 16)
(refused 17 16)
(grant 100000 3 2 105000 1 0)
(refused 18 16)
(rest 105000 1)
''')

# What stands

both(
    'stays-normal', 'one taken as normal stays so when a reservation comes into force, so 4 goes before 3; its grant leaves the share',
    example('''
(reserve 0 3 1 4000)
(normal 95000 3 12000)
(high 96000 3 4000)
(normal 96000 4 512)
(high 115000 3 4000)
(until 130000)
'''), '''
(nodes 4 hubs 2)
(grant 95000 3 1 108000 1 0)
(grant 108000 4 1 109512 1 12000)
(grant 109512 3 1 114512 1 13512)
(rest 114512 1)
(grant 115000 3 2 120000 1 0)
(rest 120000 1)
''', '''
(nodes 4 hubs 2)
(grant 95000 3 1 108000 1 0)
(refused 15 16)
(grant 108000 4 1 109512 1 12000)
(rest 109512 0)
(grant 115000 3 2 120000 1 0)
(rest 120000 1)
''')

default(
    'two-shares-left', 'two requests taken as normal are granted where 2 a frame are reserved: 2 high ones each, the third is held',
    example('''
(reserve 0 1 2 4000)
(reserve 0 4 2 4000)
(normal 99000 2 512)
(high 99500 1 4000)
(high 99500 4 4000)
(high 106000 1 4000)
(high 106000 4 4000)
(high 111000 1 4000)
(high 116000 4 4000)
(high 121000 1 4000)
(high 126000 4 512)
(until 200001)
'''), '''
(nodes 4 hubs 2)
(grant 99000 2 1 100512 1 0)
(grant 100512 4 1 105512 1 1012)
(grant 105512 1 1 110512 0 6012)
(grant 110512 1 2 115512 0 4512)
(grant 115512 4 2 120512 0 9512)
(grant 120512 1 2 125512 0 9512)
(grant 125512 4 2 130512 0 9512)
(rest 130512 0)
(grant 200000 1 2 205000 0 79000)
''')

default(
    'normal-behind-high', "one taken as normal is granted behind the other node's 2 high ones, in the frame of both shares; then its own 2",
    two(100000, 0, 13000, '''
(reserve 150000 1 2 4000)
(reserve 150000 2 2 512)
(normal 195000 2 12000)
(high 196000 1 4000)
(high 196000 2 512)
(high 208000 1 4000)
(high 212000 1 4000)
(high 216000 1 512)
(high 219100 2 512)
(high 219600 2 512)
(high 220100 2 512)
(until 300001)
'''), '''
(nodes 2 hubs 1)
(grant 195000 2 1 207000 0 0)
(grant 207000 1 1 211000 0 11000)
(grant 211000 1 2 215000 0 3000)
(grant 215000 1 2 219000 0 3000)
(grant 219000 2 1 219512 0 23000)
(grant 219512 2 2 220024 0 412)
(grant 220024 2 2 220536 0 424)
(rest 220536 0)
(grant 300000 1 2 300512 0 84000)
''')

STILL_NORMAL = example('''
(reserve 0 3 1 4000)
(normal 95000 3 12000)
(high 96000 3 12000)
(normal 96000 4 512)
(high 100000 3 4000)
(until 120000)
''')
both('real-high-replaces', 'one taken as normal stands as a reservation comes into force; a high request takes its place', STILL_NORMAL, '''
(nodes 4 hubs 2)
(grant 95000 3 1 108000 1 0)
(grant 108000 3 2 113000 2 8000)
(grant 113000 4 1 114512 1 17000)
(rest 114512 0)
''', '''
(nodes 4 hubs 2)
(grant 95000 3 1 108000 1 0)
(refused 15 16)
(grant 108000 3 2 113000 2 8000)
(grant 113000 4 1 114512 1 17000)
(rest 114512 0)
''')

both('normal-replaced', 'a standing normal request is replaced by a high event taken as normal, and left by a refused one', example('''
(normal 0 1 12000)
(high 0 1 600)
(normal 0 4 512)
(until 20000)
'''), '''
(nodes 4 hubs 2)
(grant 0 1 1 1600 0 0)
(grant 1600 4 1 3112 0 1600)
(rest 3112 0)
''', '''
(nodes 4 hubs 2)
(refused 14 16)
(grant 0 1 1 13000 0 0)
(grant 13000 4 1 14512 0 13000)
(rest 14512 0)
''')

both('held-replaced', 'a held high request is replaced at the very start at which its release comes into force', example('''
(reserve 0 1 1 4000)
(high 100000 1 4000)
(reserve 100001 1 0 0)
(high 100002 1 4000)
(until 199999)
(high 200000 1 12000)
(until 220000)
'''), '''
(nodes 4 hubs 2)
(grant 100000 1 2 105000 0 0)
(rest 105000 0)
(grant 200000 1 1 213000 0 0)
(rest 213000 0)
''', '''
(nodes 4 hubs 2)
(grant 100000 1 2 105000 0 0)
(rest 105000 0)
(refused 18 16)
(grant 200000 1 1 205000 0 0)
(rest 205000 0)
''')

both('off', 'a request taken as normal is withdrawn like any other', example('''
(high 0 1 512)
(off 0 1)
(until 100)
'''), '(nodes 4 hubs 2)', ['(nodes 4 hubs 2)', '(refused 13 16)'])

# Share and limit of a reserved unit

# The delay limit of node 3 is D + 2 × 5,000 = 23,000: its second grant ends one bit time before 123,000.
both('camera-share', 'laptops call all their packets high beside a camera with two a frame: share and limit are kept', example('''
(reserve 0 3 2 4000)
(high 99999 1 12000)
(high 100000 2 12000)
(high 100000 4 12000)
(high 100000 3 4000)
(high 113000 3 4000)
(high 113000 1 12000)
(until 150000)
'''), '''
(nodes 4 hubs 2)
(grant 99999 1 1 112999 0 0)
(grant 112999 3 2 117999 1 12999)
(grant 117999 3 2 122999 2 4999)
(grant 122999 2 1 135999 2 22999)
(grant 135999 4 1 148999 1 35999)
(grant 148999 1 1 161999 0 35999)
''', '''
(nodes 4 hubs 2)
(refused 14 16)
(refused 15 16)
(refused 16 16)
(grant 100000 3 2 105000 1 0)
(rest 105000 1)
(refused 19 16)
(grant 113000 3 2 118000 3 0)
(rest 118000 1)
''')

# Node 3 asks at 150,001 and request 5's limit is 150,001 + D + 5,000 = 168,001; the grant comes at 168,000.
both('camera-any-moment', "a laptop's packet runs as a camera asks amid the frame: its grant is within request 5's limit", example('''
(reserve 0 1 1 4000)
(reserve 0 3 1 4000)
(high 150000 4 12000)
(high 150001 3 4000)
(high 150002 1 4000)
(high 150003 2 12000)
(until 190000)
'''), '''
(nodes 4 hubs 2)
(grant 150000 4 1 163000 0 0)
(grant 163000 1 2 168000 0 12998)
(grant 168000 3 2 173000 1 17999)
(grant 173000 2 1 186000 2 22997)
(rest 186000 1)
''', '''
(nodes 4 hubs 2)
(refused 15 16)
(grant 150001 3 2 155001 1 0)
(refused 18 16)
(grant 155001 1 2 160001 1 4999)
(rest 160001 0)
''')

# Behind a framing line: the first event is line 13 without the line and 14 with it.
for framing, longest in LONGEST_PACKETS.items():
    end = longest + 1000
    both(f'unreserved-framing-{framing}', f'framing {framing}: {longest} passes row 15', framed(
        framing, plan(200000, 1000, 37000, *EXAMPLE[3:])) + lines_of(f'''
(high 0 1 {longest})
(high 0 2 {longest + 1})
(reserve 0 3 1 8000)
(high 200000 3 8001)
(until 210000)
'''), f'''
(nodes 4 hubs 2)
(refused 14 15)
(grant 0 1 1 {end} 0 0)
(rest {end} 0)
(refused 16 16)
''', '''
(nodes 4 hubs 2)
(refused 14 16)
(refused 15 15)
(refused 17 16)
''')

# Plans: the line and what is none, its place, and the lines behind it

HEAD = figures(100000, 1000, 37000)
HUB = ['(hub', '(node)', ')']
TAKEN = '(nodes 1 hubs 1)'


def planned(name, lines, line):
    """`lines` is a list of lines, or the whole text as bytes."""
    cases.planned('strict: ' + name, lines, line)


planned('the fourth line', [*HEAD, '(strict)', *HUB], TAKEN)
for framing in LONGEST_PACKETS:
    planned(f'behind framing {framing}', framed(framing, [*HEAD, '(strict)', *HUB]), TAKEN)
for form in (
        '(strict )', '( strict)', '(Strict)', '(STRICT)', '(strict', 'strict)', 'strict', '(strict))', '((strict)', ' (strict)',
        '(strict) ', '(strict)\r', '(strict)\t', '(stric)', '(stricts)', '(strict)(hub', '(strict hub)', '()', '(strict)' + ' ' * 72,
        '(strict)' + ' ' * 73, '(strict 0)', '(strict 1)', '(strict 00)', '(strict 1 1)', '(strict 9999999999999999)',
        '(strict 10000000000000000)'):
    planned(f'no form, {form!r}', [*HEAD, form, *HUB], '(refused 4 1)')
for form in ('(strict )', '(strict', '(Strict)', '(strict 0)', '(strict 5)', '(strict 10000000000000000)'):
    planned(f'no form behind framing 5, {form!r}', framed(5, [*HEAD, form, *HUB]), '(refused 5 1)')

for n in (1, 2, 3):
    planned(f'line {n}', [*HEAD[:n - 1], '(strict)', *HEAD[n - 1:], *HUB], f'(refused {n} 1)')
planned('in place of the interrupt', [*HEAD[:2], '(strict)', *HUB], '(refused 3 1)')
planned('twice', [*HEAD, '(strict)', '(strict)', *HUB], '(refused 5 1)')
planned('twice behind framing 3', framed(3, [*HEAD, '(strict)', '(strict)', *HUB]), '(refused 6 1)')
for fifth in ('(framing 3)', '(framing 5)', '(framing 4)', '(framing)'):
    planned(f'before {fifth}', [*HEAD, '(strict)', fifth, *HUB], '(refused 5 1)')
planned('before framing 5, and D is too small for it', [*figures(100000, 1000, 13000), '(strict)', '(framing 5)', *HUB], '(refused 5 1)')
planned('before and behind framing 3', [*HEAD, '(strict)', '(framing 3)', '(strict)', *HUB], '(refused 5 1)')
planned('behind framing 4', framed(4, [*HEAD, '(strict)', *HUB]), '(refused 4 4)')
planned('behind framing 5, and D is too small', framed(5, strict(plan(100000, 1000, 36999, *HUB))), '(refused 4 2)')
planned('behind D below its least', strict(plan(100000, 1000, 12999, *HUB)), '(refused 3 2)')

planned("behind the root's line", [*HEAD, '(hub', '(strict)', '(node)', ')'], '(refused 5 1)')
planned("before and behind the root's line", [*HEAD, '(strict)', '(hub', '(strict)', '(node)', ')'], '(refused 6 1)')
planned('before a lower hub', [*HEAD, '(hub', '(node)', '(strict)', *HUB, ')'], '(refused 6 1)')
planned('inside a lower hub', [*HEAD, '(hub', '(hub', '(strict)', '(node)', ')', ')'], '(refused 6 1)')
planned('before a bracket', [*HEAD, '(hub', '(node)', '(strict)', ')'], '(refused 6 1)')
planned('behind an empty line', [*HEAD, '', '(strict)', *HUB], '(refused 4 1)')
planned('before an empty line', [*HEAD, '(strict)', '', *HUB], '(refused 5 1)')
for fifth in ('(node)', '(empty)', ')', '(hub)', '(until 5)', '(interrupt 37000)'):
    planned(f'the root is no {fifth}', [*HEAD, '(strict)', fifth, *HUB], '(refused 5 1)')

both('line-behind-the-plan', 'behind the plan the line is an event line, and no event', [*HEAD, *HUB, *lines_of('''
(strict)
(high 0 1 512)
(strict)
(until 5)
''')], '''
(nodes 1 hubs 1)
(refused 7 1)
(refused 9 1)
(grant 0 1 1 1512 0 0)
''', '''
(nodes 1 hubs 1)
(refused 8 1)
(refused 9 16)
(refused 10 1)
''')

planned('without its LF', as_bytes(HEAD) + b'(strict)', '(refused 4 1)')
planned('without its LF, behind framing 5', as_bytes([*HEAD, '(framing 5)']) + b'(strict)', '(refused 5 1)')
planned('the text ends behind framing 5 and the line', [*HEAD, '(framing 5)', '(strict)'], '(refused 6 1)')
for n in range(4, 12):
    planned(f'the text ends after {n} lines', strict(EXAMPLE)[:n], f'(refused {n + 1} 1)')
planned("the root's line without its LF", as_bytes([*HEAD, '(strict)']) + b'(hub', '(refused 5 1)')
planned('the last line without its LF', as_bytes([*HEAD, '(strict)', *HUB])[:-1], '(refused 7 1)')
planned('32 ports', [*HEAD, '(strict)', '(hub', *['(node)'] * 32, ')'], '(nodes 32 hubs 1)')
planned('33 ports', [*HEAD, '(strict)', '(hub', *['(node)'] * 33, ')'], '(refused 38 3)')
planned('6 levels', framed(5, [*HEAD, '(strict)', *['(hub'] * 6, '(node)', *[')'] * 6]), '(refused 11 3)')
planned('a hub without ports', [*HEAD, '(strict)', '(hub', ')'], '(refused 6 3)')
planned('no node', [*HEAD, '(strict)', '(hub', '(empty)', ')'], '(refused 7 3)')

# Random events, in which nodes without a share often ask high; every second plan has the line. Of this seed some requests taken as normal
# stand over a frame start at which their node's reservation comes into force, and some events find the clock a frame before their time.

SEED = 137
RANDOM_SIZES = [(1, 2, 0), (2, 3, 1), (3, 5, 0), (9, 12, 3)]


def add_random_cases():
    rng = random.Random(SEED)
    for framing in (None, 5):
        for i, sizes in enumerate(RANDOM_SIZES):
            is_strict = i % 2 == (framing is None)
            lines = random_plan(rng, sizes, framing)
            lines = strict(lines) if is_strict else lines
            purpose = 'random events with{} (strict), {} hubs, {} nodes, {} empty ports'.format('' if is_strict else 'out', *sizes)
            name = f'random-{"strict" if is_strict else "default"}-{framing or 3}-{i + 1}'
            cases.by_model(name, purpose, lines + random_events(rng, lines, 36, unreserved=.7))


add_random_cases()
