"""Request 1: requests that stand over a frame's start. Each log was worked out by hand before the model was run on its text."""
from .case import Cases, lines_of, plan, strict
from .waits import HALL, waiting

cases = Cases()


def hall(name, purpose, events, log, lines=HALL, nodes=4):
    waiting(cases, name, purpose, events, log, lines, nodes)


# "Also the change at a frame's start": a packet runs from 195,000 to 208,000, over the start at 200,000, and node 2's high request of 4,000
# bits stands from 196,000 on. The first of a case's own events is line 13.

CROSSING = ['(reserve 0 2 1 4000)', '(normal 195000 1 12000)', '(high 196000 2 4000)']


def crossing(name, purpose, events, log, lines=HALL):
    events = [*CROSSING, *lines_of(events), '(until 250000)']
    hall(f'start-{name}', purpose, events, ['(grant 195000 1 1 208000 0 0)', *lines_of(log)], lines)


crossing('released', 'released: normal from the start on, though the first call behind it is the step at 208,000', [
    '(reserve 197000 2 0 0)'], '''
(grant 208000 2 1 213000 0 8000)
(rest 213000 0)
''')
crossing('lowered', 'b is lowered below the request: the same', '(reserve 197000 2 1 3999)', '''
(grant 208000 2 1 213000 0 8000)
(rest 213000 0)
''')
crossing('still-high', 'n is raised and b stays: the request stays high and keeps its time', '(reserve 197000 2 2 4000)', '''
(grant 208000 2 2 213000 0 12000)
(rest 213000 0)
''')
crossing('released-and-reserved', 'released and reserved again in one frame: it stays high', [
    '(reserve 197000 2 0 0)', '(reserve 198000 2 1 4000)'], '''
(grant 208000 2 2 213000 0 12000)
(rest 213000 0)
''')
crossing('by-until', 'the call that crosses the start comes at 204,000, and the time is still the start', [
    '(reserve 197000 2 0 0)', '(until 204000)'], '''
(grant 208000 2 1 213000 0 8000)
(rest 213000 0)
''')
crossing('normal-before', 'a normal request one bit time before the start is the change of class', [
    '(reserve 197000 2 0 0)', '(normal 199999 2 600)'], '''
(grant 208000 2 1 209600 0 8001)
(rest 209600 0)
''')
crossing('normal-over-it', 'a normal request that crosses the start finds the request turned, and keeps the start', [
    '(reserve 197000 2 0 0)', '(normal 204000 2 600)'], '''
(grant 208000 2 1 209600 0 8000)
(rest 209600 0)
''')
crossing('normal-later', 'a normal request in place of the turned one, twice, in later calls', [
    '(reserve 197000 2 0 0)', '(until 200000)', '(normal 203000 2 700)', '(normal 207000 2 600)'], '''
(grant 208000 2 1 209600 0 8000)
(rest 209600 0)
''')
crossing('normal-over-high', 'a normal request that crosses the start in place of one that stays high: a change of class', [
    '(normal 204000 2 600)'], '''
(grant 208000 2 1 209600 0 4000)
(rest 209600 0)
''')
crossing('high-over-it', 'a reserved high request that crosses the start finds the request turned: a change of class', [
    '(reserve 197000 2 1 3999)', '(high 204000 2 3999)', '(high 205000 2 600)'], '''
(grant 208000 2 2 209600 0 4000)
(rest 209600 0)
''')
crossing('high-over-high', 'a high request that crosses the start in place of one that stays high keeps its time', [
    '(high 204000 2 600)'], '''
(grant 208000 2 2 209600 0 12000)
(rest 209600 0)
''')
crossing('laptop-over-it', 'released, and a high request crosses the start: turned, then replaced by one taken as normal', [
    '(reserve 197000 2 0 0)', '(high 204000 2 600)'], '''
(grant 208000 2 1 209600 0 8000)
(rest 209600 0)
''')
crossing('laptop-refused', 'the same refused: it crosses no start, and the step turns the request', [
    '(reserve 197000 2 0 0)', '(high 204000 2 600)'], '''
(refused 15 16)
(grant 208000 2 1 213000 0 8000)
(rest 213000 0)
''', strict(HALL))
crossing('off-over-it', 'an off crosses the start; the next request is new', [
    '(reserve 197000 2 0 0)', '(off 204000 2)', '(normal 205000 2 600)'], '''
(grant 208000 2 1 209600 0 3000)
(rest 209600 0)
''')

hall('start-at-the-grant', 'the line ends at the start itself: node 3, still high, waited 9,000; node 4, turned there, waited 0', '''
(reserve 0 3 1 4000)
(normal 187000 1 12000)
(high 191000 3 4000)
(until 250000)
(reserve 250000 4 1 4000)
(normal 387000 1 12000)
(high 390000 4 4000)
(reserve 391000 4 0 0)
(until 450000)
''', '''
(grant 187000 1 1 200000 0 0)
(grant 200000 3 2 205000 0 9000)
(rest 205000 0)
(grant 387000 1 1 400000 0 0)
(grant 400000 4 1 405000 0 0)
(rest 405000 0)
''')

# By demand 3 a request that is high at a start has a grant in that frame, so none stands over two starts and is high still.

hall('held-over-a-start', 'held, and still waiting behind the start: replaced on both sides of it, it keeps the first time', '''
(reserve 0 2 1 4000)
(high 100000 2 4000)
(high 100500 2 4000)
(high 150000 2 3000)
(normal 195000 1 12000)
(high 204000 2 600)
(until 250000)
''', '''
(grant 100000 2 2 105000 0 0)
(rest 105000 0)
(grant 195000 1 1 208000 0 0)
(grant 208000 2 2 209600 0 107500)
(rest 209600 0)
''')

hall('held-and-turned', 'held and released: the line rests to the start, at which the request is turned and granted', '''
(reserve 0 2 1 4000)
(high 100000 2 4000)
(high 100500 2 4000)
(reserve 150000 2 0 0)
(until 300000)
''', '''
(grant 100000 2 2 105000 0 0)
(rest 105000 0)
(grant 200000 2 1 205000 0 0)
(rest 205000 0)
''')

# Many starts: packets of 62,000 bit times, so that the last of 20 nodes stands over the starts from 100,000 to 1,100,000.

TWENTY = ['(hub', *['(node)'] * 20, ')']

hall('many-starts', '20 nodes ask at once; the last is granted eleven frames later, and was replaced in some of them', [
    *(f'(normal 0 {k} 12000)' for k in range(1, 21)), *(f'(high {t} 20 {512 + t // 1000})' for t in (99999, 100000, 350000, 777777)),
    '(normal 1178000 20 12000)', '(until 1300000)'
], [*(f'(grant {62000 * i} {i + 1} 1 {62000 * (i + 1)} 0 {62000 * i})' for i in range(20)), '(rest 1240000 0)'],
    plan(100000, 50000, 62000, *TWENTY), 20)

# Packets of 32,000 bit times from 124,000 on, of nodes 1 to 19; node 20 is granted at 124,000 + 19 × 32,000 = 732,000.
hall('turned-long-ago', 'turned at 200,000 and granted five frames later', [
    '(reserve 0 20 1 4000)', '(high 100000 20 4000)', '(high 124000 20 4000)', *(f'(normal 124000 {k} 12000)' for k in range(1, 20)),
    '(reserve 124000 20 0 0)', '(until 800000)'
], ['(grant 100000 20 2 124000 0 0)', *(f'(grant {124000 + 32000 * i} {i + 1} 1 {156000 + 32000 * i} 0 {32000 * i})' for i in range(19)),
    '(grant 732000 20 1 756000 0 532000)', '(rest 756000 0)'], plan(100000, 20000, 32000, *TWENTY), 20)
