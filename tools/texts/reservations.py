"""Rows 16 and 17: what is in force, and what the frame holds."""
from .case import Cases, example, lines_of, plan, strict, two

cases = Cases()

# row 16

ROW_16 = example('''
(high 0 1 512)
(reserve 0 2 1 4000)
(high 0 2 4000)
(high 99999 2 4000)
(high 100000 1 512)
(high 100000 2 4001)
(high 100000 2 4000)
(until 110000)
''')
cases.worked('row-16', 'no reservation; one made in this frame; b above the b in force', strict(ROW_16), '''
(nodes 4 hubs 2)
(refused 13 16)
(refused 15 16)
(refused 16 16)
(refused 17 16)
(refused 18 16)
(grant 100000 2 2 105000 1 0)
(rest 105000 1)
''')

cases.worked('row-16-at-t', 'in force at t, where t lies in a later frame than the clock: taken so and refused so', strict(example('''
(reserve 0 2 1 4000)
(high 99999 2 512)
(high 100000 2 4000)
(until 100001)
(reserve 100500 2 0 0)
(high 100600 2 4000)
(off 100700 2)
(high 200000 2 4000)
(high 199999 2 4000)
(until 200001)
''')), '''
(nodes 4 hubs 2)
(refused 14 16)
(grant 100000 2 2 105000 1 0)
(rest 105000 1)
(refused 20 16)
(grant 200000 2 1 205000 1 0)
''')

cases.worked('row-16-larger-later', 'a larger b is in force from the next frame on', example('''
(reserve 0 1 1 512)
(until 100000)
(reserve 100000 1 1 4000)
(high 150000 1 4000)
(high 200000 1 4000)
(until 200001)
'''), '''
(nodes 4 hubs 2)
(refused 15 16)
(grant 200000 1 2 205000 0 0)
''')

cases.worked('row-16-leaves-the-request', 'a refused high leaves the standing normal request as it is', example('''
(reserve 0 1 1 512)
(normal 100000 1 12000)
(high 100000 1 513)
(until 100001)
'''), '''
(nodes 4 hubs 2)
(refused 14 16)
(grant 100000 1 1 113000 0 0)
''')

cases.worked('reserve-at-a-frame-start', 'a reserve at exactly a frame start is for the frame behind it', strict(example('''
(reserve 99999 2 1 512)
(reserve 100000 1 1 512)
(high 100000 1 512)
(high 100000 2 512)
(high 199999 1 512)
(high 200000 1 512)
(until 200001)
''')), '''
(nodes 4 hubs 2)
(refused 15 16)
(grant 100000 2 2 101512 1 0)
(rest 101512 1)
(refused 17 16)
(grant 200000 1 2 201512 0 0)
''')

cases.worked(
    'reserve-over-a-frame-start', "a reserve whose t lies in a later frame than the clock: the old one is in force to that frame's end",
    example('''
(reserve 0 1 1 512)
(reserve 100000 1 1 4000)
(high 100000 1 4000)
(high 100000 1 512)
(high 200000 1 4000)
(until 300000)
'''), '''
(nodes 4 hubs 2)
(refused 14 16)
(grant 100000 1 2 101512 0 0)
(rest 101512 0)
(grant 200000 1 2 205000 0 0)
(rest 205000 0)
''')

NEXT_FRAME_HIGH = example('''
(reserve 0 3 1 4000)
(high 100000 3 4000)
(high 100500 3 4000)
(reserve 150000 3 0 0)
(high 200000 1 512)
(reserve 199000 3 1 4000)
(until 300000)
''')
cases.worked(
    'refused-starts-no-frame',
    'a refused event of the next frame does not start it: the held request is kept high by a reserve of this frame',
    strict(NEXT_FRAME_HIGH), '''
(nodes 4 hubs 2)
(grant 100000 3 2 105000 1 0)
(rest 105000 1)
(refused 17 16)
(grant 200000 3 2 205000 3 99500)
(rest 205000 1)
''')

cases.worked('latest-accepted-counts', 'of several reserves in a frame the latest accepted counts', example('''
(reserve 0 1 1 512)
(reserve 50000 1 2 4000)
(reserve 60000 1 2 12001)
(reserve 60000 1 64 12000)
(high 100000 1 4000)
(until 100001)
'''), '''
(nodes 4 hubs 2)
(refused 14 15)
(refused 15 17)
(grant 100000 1 2 105000 0 0)
''')

# row 17

cases.worked('row-17', 'exactly full, one bit more, its own old one replaced, after a release', example('''
(reserve 0 1 29 2000)
(reserve 0 2 1 512)
(reserve 0 1 29 2001)
(reserve 0 1 28 2000)
(reserve 0 2 1 2001)
(reserve 0 2 1 2000)
(reserve 0 1 29 2000)
(reserve 0 2 0 0)
(reserve 0 1 29 2000)
(reserve 0 2 0 0)
(reserve 0 3 1 512)
'''), '''
(nodes 4 hubs 2)
(refused 13 17)
(refused 14 17)
(refused 16 17)
(refused 18 17)
(refused 22 17)
''')

cases.worked('row-17-in-place', 'the new one stands in place of its node\'s old, not beside it', example('''
(reserve 0 1 20 2000)
(reserve 0 1 29 2000)
(reserve 0 1 1 512)
(reserve 0 4 28 2000)
(reserve 0 4 29 2000)
(reserve 0 1 0 0)
(reserve 0 4 29 2000)
(reserve 0 1 1 512)
'''), '''
(nodes 4 hubs 2)
(refused 16 17)
(refused 19 17)
''')

cases.worked('row-17-all-nodes', 'the sum over all four nodes: exactly full, and one bit more', example('''
(reserve 0 1 10 2000)
(reserve 0 2 10 2000)
(reserve 0 3 5 4000)
(reserve 0 4 1 1001)
(reserve 0 4 1 1000)
(reserve 0 4 2 512)
'''), '''
(nodes 4 hubs 2)
(refused 15 17)
(refused 17 17)
''')

cases.worked(
    'row-17-latest-not-in-force', "the sum goes by the latest accepted ones; a share given up is in force to the frame's end",
    strict(example('''
(reserve 0 1 2 2000)
(high 100000 1 2000)
(reserve 100001 1 0 0)
(reserve 100001 2 29 2000)
(high 100002 2 2000)
(high 100002 1 2000)
(until 150000)
(high 150000 1 2000)
(until 200000)
(high 200000 1 2000)
(high 200000 2 2000)
(until 300000)
''')), '''
(nodes 4 hubs 2)
(grant 100000 1 2 103000 0 0)
(refused 17 16)
(grant 103000 1 2 106000 0 2998)
(rest 106000 0)
(refused 22 16)
(grant 200000 2 2 203000 1 0)
(grant 203000 1 1 206000 1 3000)
(rest 206000 0)
''')

cases.worked(
    'row-17-no-room', 'D = T: nothing can be reserved, giving up is taken', plan(100000, 0, 100000, '(hub', '(node)', ')') + lines_of('''
(reserve 0 1 1 512)
(reserve 0 1 0 0)
(normal 0 1 512)
(until 1000)
'''), '''
(nodes 1 hubs 1)
(refused 7 17)
(grant 0 1 1 512 0 0)
(rest 512 0)
''')

cases.worked(
    'row-17-largest', 'n = 64 with the largest T and O: 64 x 61,531 + 62,000 fits, 64 x 61,532 does not', two(4000000, 50000, 62000, '''
(reserve 0 1 64 12000)
(reserve 0 1 64 11532)
(reserve 0 1 64 11531)
(reserve 0 2 1 512)
(reserve 0 1 63 12000)
(reserve 0 2 1 512)
'''), '''
(nodes 2 hubs 1)
(refused 8 17)
(refused 9 17)
(refused 11 17)
(refused 13 17)
''')
