"""Requests withdrawn and replaced."""
from .case import Cases, example, strict

cases = Cases()

cases.worked('off-standing', 'off of a standing request, at the very instant it is due and among others', example('''
(normal 0 1 512)
(off 0 1)
(until 1000)
(normal 1000 2 512)
(normal 1000 1 512)
(off 1000 2)
(until 5000)
'''), '''
(nodes 4 hubs 2)
(grant 1000 1 1 2512 0 0)
(rest 2512 0)
''')

cases.worked('off-waiting', 'off of a request that waits for a busy line: the turn goes to the next', example('''
(normal 0 1 512)
(normal 0 2 512)
(normal 0 4 512)
(off 100 2)
(until 5000)
'''), '''
(nodes 4 hubs 2)
(grant 0 1 1 1512 0 0)
(grant 1512 4 1 3024 0 1512)
(rest 3024 0)
''')

cases.worked('off-held', 'off of a held request: nothing is due any more', example('''
(reserve 0 3 1 4000)
(high 100000 3 4000)
(high 100500 3 4000)
(off 150000 3)
(until 300000)
'''), '''
(nodes 4 hubs 2)
(grant 100000 3 2 105000 1 0)
(rest 105000 1)
''')

cases.worked('off-held-at-frame-start', 'off at exactly the frame start for which a request was held', example('''
(reserve 0 3 1 4000)
(high 100000 3 4000)
(high 100500 3 4000)
(off 200000 3)
(until 300000)
'''), '''
(nodes 4 hubs 2)
(grant 100000 3 2 105000 1 0)
(rest 105000 1)
''')

cases.worked('off-none', 'off without a request, before any and while its own packet runs', example('''
(off 0 1)
(off 0 1)
(normal 0 1 512)
(off 1 1)
(until 2000)
'''), '''
(nodes 4 hubs 2)
(grant 0 1 1 1512 0 0)
(rest 1512 0)
''')

cases.worked('replaced-class', 'a normal request replaced by a high one, and a high one by a normal one', example('''
(reserve 0 4 2 4000)
(normal 100000 4 12000)
(normal 100000 1 600)
(high 100000 4 4000)
(until 100001)
(high 100001 4 4000)
(normal 100001 4 700)
(until 120000)
'''), '''
(nodes 4 hubs 2)
(grant 100000 4 2 105000 0 0)
(grant 105000 1 1 106600 0 5000)
(grant 106600 4 1 108300 0 6599)
(rest 108300 0)
''')

cases.worked('replaced-held', 'normal in place of a held high: it counts at once; then high is held again', example('''
(reserve 0 3 1 4000)
(high 100000 3 4000)
(high 100500 3 4000)
(normal 106000 3 4000)
(until 150000)
(high 150000 3 4000)
(until 300000)
'''), '''
(nodes 4 hubs 2)
(grant 100000 3 2 105000 1 0)
(rest 105000 1)
(grant 106000 3 1 111000 1 0)
(rest 111000 1)
(grant 200000 3 2 205000 3 50000)
(rest 205000 1)
''')

cases.worked('replaced-length', 'the last of three requests of one node stands, nothing is stored behind it', example('''
(normal 0 1 12000)
(normal 1 1 600)
(normal 2 1 700)
(until 20000)
'''), '''
(nodes 4 hubs 2)
(grant 0 1 1 13000 0 0)
(grant 13000 1 1 14700 0 12999)
(rest 14700 0)
''')

cases.worked('not-replaced', 'a refused request does not replace the standing one', strict(example('''
(normal 0 1 600)
(normal 0 1 511)
(high 0 1 512)
(until 10)
''')), '''
(nodes 4 hubs 2)
(refused 14 15)
(refused 15 16)
(grant 0 1 1 1600 0 0)
''')
