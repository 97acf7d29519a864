"""Held requests, and requests that become normal at a frame's start."""
from .case import Cases, example

cases = Cases()

# (d) held requests

cases.worked('held-frame-after-frame', 'held again in each of three frames', example('''
(reserve 0 3 1 4000)
(high 100000 3 4000)
(high 100500 3 4000)
(high 200500 3 4000)
(high 300500 3 4000)
(until 500000)
'''), '''
(nodes 4 hubs 2)
(grant 100000 3 2 105000 1 0)
(rest 105000 1)
(grant 200000 3 2 205000 3 99500)
(rest 205000 1)
(grant 300000 3 2 305000 3 99500)
(rest 305000 1)
(grant 400000 3 2 405000 3 99500)
(rest 405000 1)
''')

cases.worked('held-then-many-frames', 'the clock goes over several frames with one held: it has the first', example('''
(reserve 0 3 1 4000)
(high 250000 3 4000)
(high 250500 3 4000)
(until 900000)
'''), '''
(nodes 4 hubs 2)
(grant 250000 3 2 255000 1 0)
(rest 255000 1)
(grant 300000 3 2 305000 3 49500)
(rest 305000 1)
''')

cases.worked('held-normal-goes-on', 'a held request is not shown upward: normal traffic goes on, over the frame start too', example('''
(reserve 0 3 1 4000)
(high 100000 3 4000)
(high 100500 3 4000)
(normal 100500 1 512)
(normal 100500 2 512)
(until 199000)
(normal 199500 4 12000)
(until 300000)
'''), '''
(nodes 4 hubs 2)
(grant 100000 3 2 105000 1 0)
(grant 105000 1 1 106512 1 4500)
(grant 106512 2 1 108024 1 6012)
(rest 108024 1)
(grant 199500 4 1 212500 0 0)
(grant 212500 3 2 217500 3 112000)
(rest 217500 1)
''')

cases.worked('held-two-nodes', 'two held: at the frame start both count, the pointer decides', example('''
(reserve 0 2 1 1000)
(reserve 0 4 1 1000)
(high 100000 2 1000)
(high 100000 4 1000)
(high 100001 2 1000)
(high 103000 4 1000)
(until 250000)
'''), '''
(nodes 4 hubs 2)
(grant 100000 2 2 102000 1 0)
(grant 102000 4 2 104000 1 2000)
(rest 104000 0)
(grant 200000 2 2 202000 1 99999)
(grant 202000 4 2 204000 1 99000)
(rest 204000 0)
''')

cases.worked('held-line-ends-at-frame-start', 'a busy line that ends at exactly the frame start: the held request counts there', example('''
(reserve 0 3 1 4000)
(high 100000 3 4000)
(high 100500 3 4000)
(normal 187000 1 12000)
(until 200000)
(until 200001)
(until 210000)
'''), '''
(nodes 4 hubs 2)
(grant 100000 3 2 105000 1 0)
(rest 105000 1)
(grant 187000 1 1 200000 0 0)
(grant 200000 3 2 205000 3 99500)
(rest 205000 1)
''')

cases.worked('held-after-n', 'n = 2: the third high of a frame is held, and the count begins anew', example('''
(reserve 0 1 2 512)
(high 100000 1 512)
(high 100001 1 512)
(high 102000 1 512)
(until 300000)
'''), '''
(nodes 4 hubs 2)
(grant 100000 1 2 101512 0 0)
(grant 101512 1 2 103024 0 1511)
(rest 103024 0)
(grant 200000 1 2 201512 0 98000)
(rest 201512 0)
''')

cases.worked(
    'grant-counts-in-its-frame', "a high grant at a frame's last bit time counts there, though its packet runs in the next", example('''
(reserve 0 1 1 512)
(high 199999 1 512)
(high 200000 1 512)
(until 300000)
'''), '''
(nodes 4 hubs 2)
(grant 199999 1 2 201511 0 0)
(grant 201511 1 2 203023 0 1511)
(rest 203023 0)
''')

# (e) requests that become normal at a frame's start

cases.worked('turned-normal-given-up', 'the reservation given up: a held request becomes normal, and waits for the high one', example('''
(reserve 0 1 1 4000)
(reserve 0 4 1 4000)
(high 100000 1 4000)
(high 100000 4 4000)
(reserve 100000 1 0 0)
(high 100001 1 4000)
(until 199999)
(high 199999 4 4000)
(until 300000)
'''), '''
(nodes 4 hubs 2)
(grant 100000 1 2 105000 0 0)
(grant 105000 4 2 110000 0 5000)
(rest 110000 0)
(grant 200000 4 2 205000 0 1)
(grant 205000 1 1 210000 0 5000)
(rest 210000 0)
''')

cases.worked('turned-normal-smaller', 'the reservation made smaller: 4,000 above 3,999 becomes normal, 3,999 stays high', example('''
(reserve 0 1 1 4000)
(reserve 0 2 1 4000)
(high 100000 1 4000)
(high 100000 2 4000)
(reserve 100001 1 1 3999)
(reserve 100001 2 1 3999)
(high 100002 1 4000)
(high 106000 2 3999)
(until 300000)
'''), '''
(nodes 4 hubs 2)
(grant 100000 1 2 105000 0 0)
(grant 105000 2 2 110000 1 5000)
(rest 110000 1)
(grant 200000 2 2 204999 3 94000)
(grant 204999 1 1 209999 1 4999)
(rest 209999 0)
''')

cases.worked(
    'turned-normal-while-busy', 'a request that counted as high becomes normal while a packet runs over the frame start', example('''
(reserve 0 3 2 4000)
(normal 195000 1 12000)
(reserve 195001 3 0 0)
(high 195002 3 4000)
(until 300000)
'''), '''
(nodes 4 hubs 2)
(grant 195000 1 1 208000 0 0)
(grant 208000 3 1 213000 1 8000)
(rest 213000 1)
''')
