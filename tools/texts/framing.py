"""Request 3: the framing line, the longest packet and D. Every log here was worked out before the model could read such a line."""
from . import order, trials
from .case import EXAMPLE, Cases, as_bytes, figures, framed, lines_of, one_line_later, plan, strict

cases = Cases()

TREE = EXAMPLE[3:]  # document 01's


def press(framing, T, O, D, events):
    """On document 01's tree; the first event is line 13."""
    return framed(framing, plan(T, O, D, *TREE)) + lines_of(events)


def pair(framing, T, O, D, events):
    """On a hub of two nodes; the first event is line 9."""
    return framed(framing, plan(T, O, D, '(hub', '(node)', '(node)', ')')) + lines_of(events)


# Framing 3 written out: the log worked out without it, but for the numbers of the lines from the fourth on.

cases.worked('framing-3-written-out', "document 01's log with the framing that it means: its refused line is 17 instead of 16", strict(
    framed(3, EXAMPLE)) + lines_of('''
(reserve 0 3 2 4000)
(normal 0 1 12000)
(normal 0 4 6000)
(high 0 3 4000)
(normal 99000 2 12000)
(high 100000 3 4000)
(normal 100000 1 1000)
(until 200000)
'''), '''
(nodes 4 hubs 2)
(refused 17 16)
(grant 0 1 1 13000 0 0)
(grant 13000 4 1 20000 0 13000)
(rest 20000 0)
(grant 99000 2 1 112000 1 0)
(grant 112000 3 2 117000 2 12000)
(grant 117000 1 1 119000 1 17000)
(rest 119000 0)
''')

for case in [*trials.cases, *order.cases]:
    cases.worked(f'framing-3-{case.name}', f'framing 3 written out in {case.name}: one line later, else the same',
                 framed(3, case.text.decode().split('\n')[:-1]), one_line_later(case.log))

# Row 15, and rows 16 and 17 with lengths that only framing 5 has.

LENGTHS = '''
(normal 0 1 36000)
(normal 0 2 36001)
(normal 0 2 12001)
(normal 0 3 511)
(reserve 0 4 1 36001)
(reserve 0 4 1 36000)
(reserve 0 3 1 25001)
(reserve 0 3 1 25000)
(high 100000 4 36001)
(high 100000 4 36000)
(high 100000 3 25001)
(high 100000 3 25000)
(until 200000)
'''

# The sum at line 19 is 37,000 + 37,000 + 26,001, one above T; at line 20 it is T. Node 3 stands below port 2, node 4 at port 3.
cases.worked(
    'framing-5-lengths', 'framing 5: 36,000 passes row 15 and 36,001 does not, in all three events; 36,000 + O counts in rows 16 and 17',
    press(5, 100000, 1000, 37000, LENGTHS), '''
(nodes 4 hubs 2)
(refused 14 15)
(refused 16 15)
(refused 17 15)
(refused 19 17)
(grant 0 1 1 37000 0 0)
(grant 37000 2 1 50001 1 37000)
(rest 50001 1)
(refused 21 15)
(refused 23 16)
(grant 100000 3 2 126000 1 0)
(grant 126000 4 2 163000 1 26000)
(rest 163000 0)
''')

cases.worked(
    'framing-3-lengths', 'the same events with framing 3: all their lengths are refused by 15, whatever D is',
    press(3, 100000, 1000, 37000, LENGTHS), ['(nodes 4 hubs 2)', *(f'(refused {line} 15)' for line in range(13, 25))])

for framing, longest in ((3, 12000), (5, 36000)):
    cases.worked(
        f'framing-{framing}-ends', f'framing {framing}: 511 and {longest + 1} are refused by 15, 512 and {longest} are taken', pair(
        framing, 100000, 0, 36000, f'''
(normal 0 1 511)
(normal 0 1 512)
(normal 0 2 {longest + 1})
(normal 0 2 {longest})
(until 50000)
'''), f'''
(nodes 2 hubs 1)
(refused 9 15)
(refused 11 15)
(grant 0 1 1 512 0 0)
(grant 512 2 1 {512 + longest} 0 512)
(rest {512 + longest} 0)
''')

cases.worked(
    'framing-5-not-cut-short', 'framing 5: lengths that are 36,000 or 512 in 16 or 32 bits are still refused by 15', pair(
    5, 100000, 1000, 37000, '''
(normal 0 1 101536)
(normal 0 1 4295003296)
(normal 0 1 65535)
(normal 0 1 66048)
(normal 0 1 9999999999999999)
(reserve 0 1 1 101536)
(reserve 0 1 1 4295003296)
(reserve 0 1 0 36000)
(until 10)
'''), ['(nodes 2 hubs 1)', *(f'(refused {line} 15)' for line in range(9, 17))])

# 64 × 36,000 = 2,304,000. With D that is 2,340,000; 46 × 36,000 more make 3,996,000, and 47 × 36,000 make 4,032,000, above T.
cases.worked('framing-5-shares', 'framing 5: the largest shares in the longest frame', pair(5, 4000000, 0, 36000, '''
(reserve 0 1 64 36000)
(reserve 0 2 47 36000)
(reserve 0 2 46 36000)
(reserve 0 2 65 36001)
(reserve 0 2 64 36001)
(high 4000000 1 36000)
(high 4000000 2 36000)
(until 5000000)
'''), '''
(nodes 2 hubs 1)
(refused 10 17)
(refused 12 14)
(refused 13 15)
(grant 4000000 1 2 4036000 0 0)
(grant 4036000 2 2 4072000 0 36000)
(rest 4072000 0)
''')

# The packet in progress, in demand 3 and in request 5.

# The shares fill the frame: D + 2 × 37,000 + 2 × 37,000 + 15,000 = 200,000, with 14,001 for 14,000 one more. The normal packet starts at
# the last bit time before frame 1 and holds the line for 36,999 of it. Behind it nodes 1, 2, 3, 1, 2 have their turns. The delay limit
# of nodes 1 and 2 is D + 2 × 37,000 + 2 × 37,000 + 1 × 15,000 = 200,000: the fourth and the fifth high grant end by 400,000, the fifth
# one bit time before. With D for framing 3 the limit would be 176,000, which the fifth grant breaks.
cases.worked(
    'framing-5-in-progress', 'a normal packet of 36,000 runs as the high requests of a full frame are put up: all have their share within '
    'the delay limit, to one bit time', press(5, 200000, 1000, 37000, '''
(reserve 0 1 2 36000)
(reserve 0 2 2 36000)
(reserve 0 3 1 14001)
(reserve 0 3 1 14000)
(normal 199999 4 36000)
(high 200000 1 36000)
(high 200000 2 36000)
(high 200000 3 14000)
(high 240000 1 36000)
(high 280000 2 36000)
(until 400000)
'''), '''
(nodes 4 hubs 2)
(refused 15 17)
(grant 199999 4 1 236999 0 0)
(grant 236999 1 2 273999 0 36999)
(grant 273999 2 2 310999 1 73999)
(grant 310999 3 2 325999 0 110999)
(grant 325999 1 2 362999 1 85999)
(grant 362999 2 2 399999 1 82999)
(rest 399999 1)
''')

# Node 3 asks at 250,001, one bit time into the normal packet, and node 1 goes before it. Request 5's limit is 250,001 + D + 37,000 =
# 324,001, and the grant comes at 324,000.
cases.worked(
    'framing-5-any-moment', 'a normal packet of 36,000 runs as a high request is put up amid the frame: its grant is one bit time within '
    "request 5's limit", press(5, 200000, 1000, 37000, '''
(reserve 0 1 1 36000)
(reserve 0 3 1 36000)
(normal 250000 4 36000)
(high 250001 3 36000)
(high 250002 1 36000)
(until 400000)
'''), '''
(nodes 4 hubs 2)
(grant 250000 4 1 287000 0 0)
(grant 287000 1 2 324000 0 36998)
(grant 324000 3 2 361000 1 73999)
(rest 361000 1)
''')

cases.worked(
    'framing-5-turned-normal', 'a held request of 36,000 becomes normal where 12,000 comes into force', press(5, 200000, 1000, 37000, '''
(reserve 0 1 1 36000)
(high 200000 1 36000)
(reserve 200000 1 1 12000)
(high 200001 1 36000)
(until 500000)
'''), '''
(nodes 4 hubs 2)
(grant 200000 1 2 237000 0 0)
(rest 237000 0)
(grant 400000 1 1 437000 0 0)
(rest 437000 0)
''')

cases.worked(
    'framing-5-O-most', 'T = 100,000, O = 50,000, D = 86,000: the longest time that a packet can have, over a frame start', pair(
    5, 100000, 50000, 86000, '''
(reserve 0 1 1 512)
(normal 99999 2 36000)
(normal 100000 1 36001)
(until 185999)
(until 186000)
'''), '''
(nodes 2 hubs 1)
(refused 9 17)
(grant 99999 2 1 185999 0 0)
(refused 11 15)
(rest 185999 0)
''')

cases.worked('framing-5-last-grant', 'the latest end that a grant can have', press(5, 200000, 50000, 86000, '''
(normal 999999999999999 4 36000)
(until 1000000000000000)
(until 1000000000000001)
'''), '''
(nodes 4 hubs 2)
(grant 999999999999999 4 1 1000000000085999 0 0)
(refused 15 11)
''')

# Plans: the rows of the framing line, in their order 1, 4, 2, and the lines behind it

HUB = ['(hub', '(node)', ')']
TAKEN = '(nodes 1 hubs 1)'


def planned(name, lines, line):
    """`lines` is a list of lines, or the whole text as bytes."""
    cases.planned('framing: ' + name, lines, line)


def fourth(line, D=37000):
    """A plan with O = 1,000 and this fourth line."""
    return [*figures(100000, 1000, D), line, *HUB]


for form in (
        '(framing)', '(framing )', '(framing 03)', '(framing 05)', '(framing 00)', '(framing 04)', '(framing  3)', '(framing 3 )',
        '(framing 3 5)', '(framing +3)', '(framing -3)', '(framing 5.0)', '(framing 0x5)', '(framing five)', '(framing3)', '(framing\t3)',
        '(framing 3', 'framing 3)', '(framing 3))', '((framing 3)', ' (framing 3)', '(framing 3) ', '(framing 3)\r', '(Framing 3)',
        '(framin 3)', '(framings 3)', '(frame 3)', '( 3)', '(3)', '(framing 10000000000000005)', '(framing 18446744073709551621)',
        '(framing ' + '3' * 70 + ')', '(framing ' + '3' * 71 + ')', '(framing 3)(hub', '(hub 3)'):
    planned(f'no form, {form!r}', fourth(form), '(refused 4 1)')
for number in (0, 1, 2, 4, 6, 7, 8, 13, 33, 35, 50, 53, 55, 259, 261, 12000, 36000, 65539, 65541, 4294967299, 4294967301,
               1000000000000005, 9999999999999999):
    planned(f'neither 3 nor 5, {number}', fourth(f'(framing {number})'), '(refused 4 4)')
planned('3', fourth('(framing 3)'), TAKEN)
planned('5', fourth('(framing 5)'), TAKEN)

planned('1 before 2', fourth('(framing 05)', 13000), '(refused 4 1)')
planned('4 before 2', fourth('(framing 4)', 13000), '(refused 4 4)')
planned('4 before 2, 16 digits', fourth('(framing 9999999999999999)', 13000), '(refused 4 4)')
planned('17 digits are 1, also where D would be too small', fourth('(framing 55555555555555555)', 13000), '(refused 4 1)')

# D at both of its least values and one below, with O at both ends; D for framing 3 is looked at on its own line, whatever stands behind
for O in (0, 1000, 50000):
    for framing, D, line in (
            (3, 12000, TAKEN), (3, 11999, '(refused 3 2)'), (3, 35999, TAKEN), (3, 36000, TAKEN),
            (5, 36000, TAKEN), (5, 35999, '(refused 4 2)'), (5, 12000, '(refused 4 2)'), (5, 11999, '(refused 3 2)'),
            (4, 11999, '(refused 3 2)'), (4, 12000, '(refused 4 4)'), ('', 11999, '(refused 3 2)')):
        planned(f'{framing!r} with O = {O} and D = {D} + O', framed(framing, plan(100000, O, D + O, *HUB)), line)
planned('5 with D = T', framed(5, plan(100000, 0, 100000, *HUB)), TAKEN)
planned('5 with D above T', framed(5, plan(100000, 0, 100001, *HUB)), '(refused 3 2)')
planned('5 with D = T in the longest frame', framed(5, plan(4000000, 50000, 4000000, *HUB)), TAKEN)

# elsewhere
HEAD = figures(100000, 1000, 37000)
planned('the first line', ['(framing 3)', *HEAD, *HUB], '(refused 1 1)')
planned('the second line', [*HEAD[:1], '(framing 3)', *HEAD[1:], *HUB], '(refused 2 1)')
planned('before the interrupt', [*HEAD[:2], '(framing 5)', *HEAD[2:], *HUB], '(refused 3 1)')
planned('in place of the interrupt', [*HEAD[:2], '(framing 5)', *HUB], '(refused 3 1)')
planned('twice', [*HEAD, '(framing 3)', '(framing 3)', *HUB], '(refused 5 1)')
planned('twice, 3 and 5', [*HEAD, '(framing 3)', '(framing 5)', *HUB], '(refused 5 1)')
planned('twice, 5 and 4', [*HEAD, '(framing 5)', '(framing 4)', *HUB], '(refused 5 1)')
planned('twice, 4 and 5', [*HEAD, '(framing 4)', '(framing 5)', *HUB], '(refused 4 4)')
planned("behind the root's line", [*HEAD, '(hub', '(framing 3)', '(node)', ')'], '(refused 5 1)')
planned("behind the root's line too", [*HEAD, '(framing 3)', '(hub', '(framing 3)', '(node)', ')'], '(refused 6 1)')
planned("4 behind the root's line is 1", [*HEAD, '(hub', '(framing 4)', '(node)', ')'], '(refused 5 1)')
planned('before a bracket', [*HEAD, '(hub', '(node)', '(framing 3)', ')'], '(refused 6 1)')
planned('behind an empty line', [*HEAD, '', '(framing 3)', *HUB], '(refused 4 1)')
planned('before an empty line', [*HEAD, '(framing 3)', '', *HUB], '(refused 5 1)')
cases.worked('framing-behind-the-plan', 'behind the plan a framing line is an event line, and no event', [
    *HEAD, '(framing 5)', *HUB, '(framing 5)', '(normal 0 1 36000)', '(framing 3)', '(until 1)'], '''
(nodes 1 hubs 1)
(refused 8 1)
(refused 10 1)
(grant 0 1 1 37000 0 0)
''')

# the text ends, the LF is missing, and the lines behind have a number more
planned('without its LF', as_bytes(HEAD) + b'(framing 5)', '(refused 4 1)')
planned('4 without its LF is 1', as_bytes(HEAD) + b'(framing 4)', '(refused 4 1)')
planned('too small a D, without its LF, is 1', as_bytes(figures(100000, 1000, 13000)) + b'(framing 5)', '(refused 4 1)')
for n in range(4, 12):
    planned(f'the text ends after {n} lines', framed(5, HEAD + TREE)[:n], f'(refused {n + 1} 1)')
planned("the root's line without its LF", as_bytes([*HEAD, '(framing 5)']) + b'(hub', '(refused 5 1)')
planned('the last line without its LF', as_bytes(framed(5, HEAD + HUB))[:-1], '(refused 7 1)')
planned('the root is no node', [*HEAD, '(framing 5)', '(node)'], '(refused 5 1)')
planned('32 ports', [*HEAD, '(framing 5)', '(hub', *['(node)'] * 32, ')'], '(nodes 32 hubs 1)')
planned('33 ports', [*HEAD, '(framing 5)', '(hub', *['(node)'] * 33, ')'], '(refused 38 3)')
planned('6 levels', [*HEAD, '(framing 5)', *['(hub'] * 6, '(node)', *[')'] * 6], '(refused 10 3)')
planned('a hub without ports', [*HEAD, '(framing 5)', '(hub', ')'], '(refused 6 3)')
planned('no node', [*HEAD, '(framing 5)', '(hub', '(empty)', ')'], '(refused 7 3)')
