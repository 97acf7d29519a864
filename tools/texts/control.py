"""Changes of class, resumed and afresh."""
from .case import Cases, example, lines_of, plan

cases = Cases()

cases.worked(
    'nearest-hub', "a change of class turns at the holder, to which the root's pointer leads; by the old rule 2 this grant took 3 moves",
    plan(
    100000, 1000, 13000, '(hub', '(hub', '(hub', '(node)', '(node)', ')', '(node)', ')', ')') + lines_of('''
(reserve 0 3 1 512)
(normal 100000 1 512)
(high 100100 3 512)
(normal 102000 2 512)
(normal 103100 3 512)
(until 110000)
'''), '''
(nodes 3 hubs 3)
(grant 100000 1 1 101512 2 0)
(grant 101512 3 2 103024 3 1412)
(grant 103024 2 1 104536 1 1024)
(grant 104536 3 1 106048 1 1436)
(rest 106048 1)
''')

PAIR = plan(100000, 1000, 13000, '(hub', '(hub', '(node)', '(node)', ')', '(hub', '(node)', '(node)', ')', ')')

cases.worked(
    'unmarked-on-the-line',
    "at the change back to normal the root's pointer is on the holder's line, but not marked: up to the root and afresh, so 2 before 3",
    example('''
(reserve 0 2 1 512)
(normal 100000 2 512)
(normal 100001 1 512)
(high 101513 2 512)
(normal 103025 2 512)
(normal 103025 3 512)
(until 120000)
'''), '''
(nodes 4 hubs 2)
(grant 100000 2 1 101512 1 0)
(grant 101512 1 1 103024 1 1511)
(grant 103024 2 2 104536 1 1511)
(grant 104536 2 1 106048 2 1511)
(grant 106048 3 1 107560 0 3023)
(rest 107560 1)
''')

cases.worked(
    'marked-elsewhere',
    "at the change back to normal the root's pointer is marked, but not on the holder's line: up to the root and afresh, so 3 before 4",
    PAIR + lines_of('''
(reserve 0 3 1 512)
(normal 100000 3 512)
(normal 100001 1 512)
(high 101513 3 512)
(normal 103025 3 512)
(normal 103025 4 512)
(until 120000)
'''), '''
(nodes 4 hubs 3)
(grant 100000 3 1 101512 1 0)
(grant 101512 1 1 103024 2 1511)
(grant 103024 3 2 104536 2 1511)
(grant 104536 3 1 106048 2 1511)
(grant 106048 4 1 107560 0 3023)
(rest 107560 1)
''')

cases.worked(
    'turn-and-hand-up', 'control turns at the holder, in which nothing is left, and goes up from there: one move, as by the root', plan(
    100000, 1000, 13000, '(hub', '(hub', '(node)', '(node)', ')', '(node)', ')') + lines_of('''
(reserve 0 2 1 512)
(normal 100000 1 512)
(high 100001 2 512)
(normal 101513 3 512)
(until 120000)
'''), '''
(nodes 3 hubs 2)
(grant 100000 1 1 101512 1 0)
(grant 101512 2 2 103024 2 1511)
(grant 103024 3 1 104536 1 1511)
(rest 104536 0)
''')

cases.worked(
    'afresh-other-port', 'the pointer is marked, but another port is taken: its hub starts afresh, so 3 before 4', PAIR + lines_of('''
(normal 0 3 512)
(normal 100 1 512)
(until 5000)
(normal 5000 3 512)
(normal 5000 4 512)
(until 20000)
'''), '''
(nodes 4 hubs 3)
(grant 0 3 1 1512 1 0)
(grant 1512 1 1 3024 2 1412)
(rest 3024 1)
(grant 5000 3 1 6512 1 0)
(grant 6512 4 1 8024 0 1512)
(rest 8024 1)
''')

cases.worked(
    'afresh-behind-a-hub', 'control handed up leaves no mark on the port behind: its hub starts afresh, so 3 before 4', PAIR + lines_of('''
(normal 0 3 512)
(normal 100 1 512)
(normal 2000 3 512)
(normal 2000 4 512)
(until 10000)
'''), '''
(nodes 4 hubs 3)
(grant 0 3 1 1512 1 0)
(grant 1512 1 1 3024 2 1412)
(grant 3024 3 1 4536 2 1024)
(grant 4536 4 1 6048 0 2536)
(rest 6048 1)
''')

cases.worked('afresh-behind-a-node', 'a node granted leaves no mark on the port behind: its hub starts afresh, so 2 before 3', example('''
(normal 0 2 512)
(normal 100 1 512)
(normal 2000 2 512)
(normal 2000 3 512)
(until 10000)
'''), '''
(nodes 4 hubs 2)
(grant 0 2 1 1512 1 0)
(grant 1512 1 1 3024 1 1412)
(grant 3024 2 1 4536 1 1024)
(grant 4536 3 1 6048 0 2536)
(rest 6048 1)
''')

cases.worked('moves-16', 'the most moves: up 4, down the marked line 4, up it 4, down afresh 4', plan(
    100000, 1000, 13000, '(hub', *['(hub'] * 4, '(node)', *[')'] * 4, *['(hub'] * 4, '(node)', '(node)', *[')'] * 4, ')') + lines_of('''
(reserve 0 3 1 512)
(normal 100000 1 512)
(high 100100 3 512)
(normal 102000 1 512)
(normal 102000 2 512)
(until 110000)
'''), '''
(nodes 3 hubs 9)
(grant 100000 1 1 101512 4 0)
(grant 101512 3 2 103024 8 1412)
(grant 103024 2 1 104536 16 1024)
(grant 104536 1 1 106048 8 2536)
(rest 106048 4)
''')
