"""Request 1: the wait in a grant's line. Each log that stands here was worked out by hand before the model was run on its text."""
from .case import EXAMPLE, Cases, example, framed, lines_of, plan, strict

cases = Cases()

# A hub of four nodes with document 01's figures, so that no grant takes a move; the first event is line 10, behind `(strict)` line 11.
HALL = plan(100000, 1000, 13000, '(hub', *['(node)'] * 4, ')')


def waiting(cases, name, purpose, events, log, lines, nodes=4):
    """On one hub; the log is that behind its first line."""
    cases.worked(f'wait-{name}', purpose, lines + lines_of(events), [f'(nodes {nodes} hubs 1)', *lines_of(log)])


def hall(name, purpose, events, log, lines=HALL):
    waiting(cases, name, purpose, events, log, lines)


cases.worked('wait-example', "document 01's log with the waits of request 1: 0, 13000, 0, 12000 and 17000", strict(example('''
(reserve 0 3 2 4000)
(normal 0 1 12000)
(normal 0 4 6000)
(high 0 3 4000)
(normal 99000 2 12000)
(high 100000 3 4000)
(normal 100000 1 1000)
(until 200000)
''')), '''
(nodes 4 hubs 2)
(refused 16 16)
(grant 0 1 1 13000 0 0)
(grant 13000 4 1 20000 0 13000)
(rest 20000 0)
(grant 99000 2 1 112000 1 0)
(grant 112000 3 2 117000 2 12000)
(grant 117000 1 1 119000 1 17000)
(rest 119000 0)
''')

# "A replacing request of the same class keeps that time"

hall('normal-kept', 'a normal request replaced three times, the last time one bit time before its grant', '''
(normal 0 1 12000)
(normal 1000 2 600)
(normal 2000 2 700)
(normal 2000 2 12000)
(normal 12999 2 512)
(until 20000)
''', '''
(grant 0 1 1 13000 0 0)
(grant 13000 2 1 14512 0 12000)
(rest 14512 0)
''')

hall('high-kept', 'a high request replaced three times, the last time at the very instant of its grant', '''
(reserve 0 2 1 4000)
(normal 100000 1 12000)
(high 101000 2 4000)
(high 105000 2 512)
(high 112999 2 4000)
(high 113000 2 600)
(until 120000)
''', '''
(grant 100000 1 1 113000 0 0)
(grant 113000 2 2 114600 0 12000)
(rest 114600 0)
''')

hall('others-leave-it', 'what other nodes ask, withdraw and reserve, a reserve of its own and the clock leave the time as it is', '''
(normal 0 1 12000)
(normal 1000 2 600)
(normal 2000 3 600)
(off 3000 3)
(off 4000 1)
(reserve 5000 2 1 4000)
(reserve 6000 3 1 4000)
(until 7000)
(until 20000)
''', '''
(grant 0 1 1 13000 0 0)
(grant 13000 2 1 14600 0 12000)
(rest 14600 0)
''')

hall('line-at-rest', 'where the line rests a request has its grant at once, however late the next call comes', '''
(normal 5 1 512)
(until 99999)
(normal 123456 4 600)
(until 1000000000000000)
''', '''
(grant 5 1 1 1517 0 0)
(rest 1517 0)
(grant 123456 4 1 125056 0 0)
(rest 125056 0)
''')

# "A change of class sets it anew"

hall('normal-to-high', 'a high request in place of a normal one', '''
(reserve 0 2 1 4000)
(normal 100000 1 12000)
(normal 101000 2 600)
(high 104000 2 4000)
(until 130000)
''', '''
(grant 100000 1 1 113000 0 0)
(grant 113000 2 2 118000 0 9000)
(rest 118000 0)
''')

hall('high-to-normal', 'a normal request in place of a high one', '''
(reserve 0 2 1 4000)
(normal 100000 1 12000)
(high 101000 2 4000)
(normal 104000 2 600)
(until 130000)
''', '''
(grant 100000 1 1 113000 0 0)
(grant 113000 2 1 114600 0 9000)
(rest 114600 0)
''')

hall('there-and-back', 'node 2 changes twice, so its time is 105,000; node 3 changes once more, at 107,000, and then stays high', '''
(reserve 0 2 1 4000)
(reserve 0 3 1 4000)
(normal 100000 1 12000)
(normal 101000 2 600)
(normal 101000 3 600)
(high 103000 2 4000)
(high 103000 3 4000)
(normal 105000 2 600)
(normal 105000 3 600)
(high 107000 3 4000)
(high 109000 3 3000)
(until 130000)
''', '''
(grant 100000 1 1 113000 0 0)
(grant 113000 3 2 117000 0 6000)
(grant 117000 2 1 118600 0 12000)
(rest 118600 0)
''')

hall('back-at-one-instant', 'high and normal again at one time: two changes of class, so the time is anew', '''
(reserve 0 2 1 4000)
(normal 100000 1 12000)
(normal 101000 2 600)
(high 104000 2 4000)
(normal 104000 2 600)
(until 130000)
''', '''
(grant 100000 1 1 113000 0 0)
(grant 113000 2 1 114600 0 9000)
(rest 114600 0)
''')

hall('held-to-normal', 'a normal request in place of a held one, and behind its grant a held one that stands to the next frame', '''
(reserve 0 2 1 4000)
(high 100000 2 4000)
(high 100500 2 4000)
(normal 104000 2 600)
(high 106000 2 4000)
(until 300000)
''', '''
(grant 100000 2 2 105000 0 0)
(grant 105000 2 1 106600 0 1000)
(rest 106600 0)
(grant 200000 2 2 205000 0 94000)
(rest 205000 0)
''')

# A grant or an off ends it: the next request is new, also in the same class.

hall('new-behind-a-grant', 'each next request of a node comes while its own packet runs', '''
(normal 0 1 12000)
(normal 5000 1 600)
(normal 6000 1 700)
(normal 14000 1 512)
(until 20000)
''', '''
(grant 0 1 1 13000 0 0)
(grant 13000 1 1 14700 0 8000)
(grant 14700 1 1 16212 0 700)
(rest 16212 0)
''')

hall('new-behind-a-high-grant', 'the same in class high, the third request being held to the next frame', '''
(reserve 0 1 2 4000)
(high 100000 1 4000)
(high 101000 1 4000)
(high 102000 1 600)
(high 106000 1 4000)
(high 107000 1 512)
(until 300000)
''', '''
(grant 100000 1 2 105000 0 0)
(grant 105000 1 2 106600 0 4000)
(rest 106600 0)
(grant 200000 1 2 201512 0 94000)
(rest 201512 0)
''')

hall('new-behind-an-off', 'withdrawn and put up again in the same class, also at one time', '''
(normal 0 1 12000)
(normal 1000 2 600)
(normal 1000 3 600)
(off 5000 2)
(off 6000 3)
(normal 6000 3 600)
(normal 7000 2 700)
(normal 8000 2 600)
(until 20000)
''', '''
(grant 0 1 1 13000 0 0)
(grant 13000 2 1 14600 0 6000)
(grant 14600 3 1 16200 0 8600)
(rest 16200 0)
''')

hall('new-high-behind-an-off', 'a held high request withdrawn and put up again', '''
(reserve 0 2 1 4000)
(high 100000 2 4000)
(high 100500 2 4000)
(off 120000 2)
(high 150000 2 4000)
(until 300000)
''', '''
(grant 100000 2 2 105000 0 0)
(rest 105000 0)
(grant 200000 2 2 205000 0 50000)
(rest 205000 0)
''')

# Refused events

hall('refused-11-13-15', 'a request before the clock or above 10^15, of no node, or of no length changes no time', '''
(normal 0 1 12000)
(normal 1000 2 600)
(normal 999 2 600)
(normal 1000000000000001 2 600)
(normal 2000 0 600)
(normal 2000 5 600)
(normal 2000 2 511)
(normal 2000 2 12001)
(high 2000 2 511)
(high 2000 5 600)
(off 2000 5)
(until 20000)
''', '''
(grant 0 1 1 13000 0 0)
(refused 12 11)
(refused 13 11)
(refused 14 13)
(refused 15 13)
(refused 16 15)
(refused 17 15)
(refused 18 15)
(refused 19 13)
(refused 20 13)
(grant 13000 2 1 14600 0 12000)
(rest 14600 0)
''')

hall('refused-16', 'a high request longer than the b in force changes no time, neither of a normal request nor of a high one', '''
(reserve 0 2 1 4000)
(reserve 0 3 1 4000)
(normal 100000 1 12000)
(normal 101000 2 600)
(high 102000 3 4000)
(high 103000 2 4001)
(high 104000 3 4001)
(until 130000)
''', '''
(grant 100000 1 1 113000 0 0)
(refused 15 16)
(refused 16 16)
(grant 113000 3 2 118000 0 11000)
(grant 118000 2 1 119600 0 17000)
(rest 119600 0)
''')

# Request 8: the class is the one in which the request stands.

UNRESERVED = '''
(normal 0 1 12000)
(normal 1000 2 600)
(high 2000 2 700)
(high 3000 3 600)
(high 4000 3 700)
(normal 5000 3 512)
(until 20000)
'''
hall('unreserved', 'a high request taken as normal keeps the time of a standing normal one, and is new where none stands', UNRESERVED, '''
(grant 0 1 1 13000 0 0)
(grant 13000 2 1 14700 0 12000)
(grant 14700 3 1 16212 0 11700)
(rest 16212 0)
''')
hall('unreserved-strict', 'the same refused: of node 3 only the normal request stands', UNRESERVED, '''
(grant 0 1 1 13000 0 0)
(refused 13 16)
(refused 14 16)
(refused 15 16)
(grant 13000 2 1 14600 0 12000)
(grant 14600 3 1 16112 0 9600)
(rest 16112 0)
''', strict(HALL))

# All three stand as normal from 96,000 on, over the start at which their reservations come into force.
THEN_RESERVED = '''
(reserve 0 2 1 4000)
(reserve 0 3 1 4000)
(reserve 0 4 1 4000)
(normal 95000 1 12000)
(high 96000 2 600)
(high 96000 3 600)
(high 96000 4 600)
(high 100000 2 700)
(normal 101000 3 700)
(high 102000 4 700)
(high 103000 4 512)
(until 120000)
'''
hall('unreserved-then-reserved', 'taken as normal it stays so as its reservation comes into force; a reserved high request is a change',
     THEN_RESERVED, '''
(grant 95000 1 1 108000 0 0)
(grant 108000 2 2 109700 0 8000)
(grant 109700 4 2 111212 0 7700)
(grant 111212 3 1 112912 0 15212)
(rest 112912 0)
''')
hall('unreserved-then-reserved-strict', 'the same with the first three refused', THEN_RESERVED, '''
(grant 95000 1 1 108000 0 0)
(refused 15 16)
(refused 16 16)
(refused 17 16)
(grant 108000 2 2 109700 0 8000)
(grant 109700 4 2 111212 0 7700)
(grant 111212 3 1 112912 0 10212)
(rest 112912 0)
''', strict(HALL))

# Framing 5

FIVE = framed(5, plan(200000, 1000, 37000, *HALL[3:]))

hall('framing-5', 'packets of 36,000: replaced by a shorter one; turned at 400,000, where 12,000 comes into force', '''
(reserve 0 2 1 36000)
(normal 0 1 36000)
(normal 1000 3 36000)
(normal 20000 3 12001)
(normal 390000 1 36000)
(high 391000 2 36000)
(reserve 392000 2 1 12000)
(until 500000)
''', '''
(grant 0 1 1 37000 0 0)
(grant 37000 3 1 50001 0 36000)
(rest 50001 0)
(grant 390000 1 1 427000 0 0)
(grant 427000 2 1 464000 0 27000)
(rest 464000 0)
''', FIVE)

# All 256 nodes ask at 0 for packets of 86,000 bit times, 32 in each of eight hubs: control goes down at first, and from hub to hub by 2.
cases.worked(
    'wait-longest-round', 'framing 5 and the greatest overhead: the last of 256 nodes waits 255 × 86,000',
    framed(5, plan(100000, 50000, 86000, '(hub', *['(hub', *['(node)'] * 32, ')'] * 8, ')')) + [
        *(f'(normal 0 {k} 36000)' for k in range(1, 257)), '(until 30000000)'],
    ['(nodes 256 hubs 9)', '(grant 0 1 1 86000 1 0)',
     *(f'(grant {86000 * i} {i + 1} 1 {86000 * (i + 1)} {0 if i % 32 else 2} {86000 * i})' for i in range(1, 256)), '(rest 22016000 1)'])

# Times of many digits

hall('late', 'times close to 10^15: kept, anew by a change of class, held to a start, and turned at one', '''
(reserve 0 2 1 4000)
(normal 999999999780000 1 12000)
(normal 999999999781234 3 600)
(normal 999999999790000 3 700)
(normal 999999999790000 2 600)
(high 999999999791111 2 4000)
(high 999999999798001 2 4000)
(normal 999999999895000 1 12000)
(high 999999999896000 2 4000)
(reserve 999999999897000 2 0 0)
(until 1000000000000000)
''', '''
(grant 999999999780000 1 1 999999999793000 0 0)
(grant 999999999793000 2 2 999999999798000 0 1889)
(grant 999999999798000 3 1 999999999799700 0 16766)
(rest 999999999799700 0)
(grant 999999999800000 2 2 999999999805000 0 1999)
(rest 999999999805000 0)
(grant 999999999895000 1 1 999999999908000 0 0)
(grant 999999999908000 2 1 999999999913000 0 8000)
(rest 999999999913000 0)
''')

hall('latest', 'a grant at 10^15 - 1, and a request that no step grants any more', '''
(normal 999999999986999 1 12000)
(normal 999999999987000 2 12000)
(normal 999999999999999 2 600)
(normal 999999999999999 3 600)
(until 1000000000000000)
''', '''
(grant 999999999986999 1 1 999999999999999 0 0)
(grant 999999999999999 2 1 1000000000001599 0 12999)
''')

# On document 01's tree: moves and waits beside each other

cases.worked('wait-and-moves', 'nodes 2 and 3 below the lower hub: each number of the line on its own', EXAMPLE + lines_of('''
(reserve 0 4 1 512)
(normal 100000 2 512)
(high 100100 4 512)
(normal 102000 2 512)
(normal 102345 3 512)
(until 110000)
'''), '''
(nodes 4 hubs 2)
(grant 100000 2 1 101512 1 0)
(grant 101512 4 2 103024 1 1412)
(grant 103024 3 1 104536 1 679)
(grant 104536 2 1 106048 2 2536)
(rest 106048 1)
''')
