"""Lines of hubs resumed and started afresh, at every depth."""
from .case import Cases, lines_of, plan

cases = Cases()


def chain(depth):
    """Document 01's plan with its lower hub at a greater depth: node 1, the hub of nodes 2 and 3 below so many, node 4."""
    return plan(100000, 1000, 13000, '(hub', '(node)', *['(hub'] * depth, '(node)', '(node)', *[')'] * depth, '(node)', ')')


def worked(name, d, purpose, events, log):
    """`log` are the lines behind the first, which is the same in all."""
    cases.worked(f'{name}-{d}', f'depth {d}: {purpose}', chain(d) + lines_of(events), [f'(nodes 4 hubs {d + 1})', *lines_of(log)])


for d in range(1, 5):
    worked('resume-after-class', d, 'the marked line is resumed after a change of class, so 3 before 2', '''
(reserve 0 4 1 512)
(normal 100000 2 512)
(high 100100 4 512)
(normal 102000 2 512)
(normal 102000 3 512)
(until 110000)
''', f'''
(grant 100000 2 1 101512 {d} 0)
(grant 101512 4 2 103024 {d} 1412)
(grant 103024 3 1 104536 {d} 1024)
(grant 104536 2 1 106048 {2 * d} 2536)
(rest 106048 {d})
''')
    worked('turn-at-holder', d, f'both classes have their marked line to the holder, so no move; by the old rule 2 it took {2 * d}', '''
(reserve 0 3 1 512)
(normal 100000 2 512)
(high 100100 3 512)
(normal 102000 3 512)
(until 110000)
''', f'''
(grant 100000 2 1 101512 {d} 0)
(grant 101512 3 2 103024 {2 * d} 1412)
(grant 103024 3 1 104536 0 1024)
(rest 104536 {d})
''')
    worked('resume-after-rest', d, 'a rest loses no turn, so 3 before 2', '''
(normal 0 2 512)
(until 5000)
(normal 5000 2 512)
(normal 5000 3 512)
(until 20000)
''', f'''
(grant 0 2 1 1512 {d} 0)
(rest 1512 {d})
(grant 5000 3 1 6512 {d} 0)
(grant 6512 2 1 8024 {2 * d} 1512)
(rest 8024 {d})
''')
    worked('afresh-after-hand-up', d, 'handed up and entered again, the line starts afresh, so 2 before 3', '''
(normal 0 2 512)
(normal 100 4 512)
(normal 2000 2 512)
(normal 2000 3 512)
(until 10000)
''', f'''
(grant 0 2 1 1512 {d} 0)
(grant 1512 4 1 3024 {d} 1412)
(grant 3024 2 1 4536 {d} 1024)
(grant 4536 3 1 6048 0 2536)
(rest 6048 {d})
''')
    worked('afresh-over-old-marks', d,
           'the root passed the marked line by; entered later it starts afresh and its marks are gone, so 2 before 3', '''
(reserve 0 4 1 512)
(normal 100000 2 512)
(high 100100 4 512)
(normal 102000 4 512)
(normal 103100 2 512)
(normal 103100 3 512)
(until 120000)
''', f'''
(grant 100000 2 1 101512 {d} 0)
(grant 101512 4 2 103024 {d} 1412)
(grant 103024 4 1 104536 0 1024)
(grant 104536 2 1 106048 {d} 1436)
(grant 106048 3 1 107560 0 2948)
(rest 107560 {d})
''')
