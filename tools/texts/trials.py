"""Document 01's trial cases."""
from .case import Cases, example, lines_of, plan, strict

cases = Cases()

NINE = plan(100000, 1000, 13000, '(hub', *['(node)'] * 9, ')')

cases.worked('m1', 'pointer 3 (a grant to 2 put it there), normal from 2, 3, 5, 9: granted 3, 5, 9, 2', NINE + lines_of('''
(normal 0 2 512)
(normal 100 9 512)
(normal 100 2 512)
(normal 100 5 512)
(normal 100 3 512)
(until 10000)
'''), '''
(nodes 9 hubs 1)
(grant 0 2 1 1512 0 0)
(grant 1512 3 1 3024 0 1412)
(grant 3024 5 1 4536 0 2924)
(grant 4536 9 1 6048 0 4436)
(grant 6048 2 1 7560 0 5948)
(rest 7560 0)
''')

cases.worked('m2', 'pointer 9 (a grant to 8 put it there), only node 1 stands: 1', NINE + lines_of('''
(normal 0 8 512)
(until 5000)
(normal 5000 1 512)
(until 10000)
'''), '''
(nodes 9 hubs 1)
(grant 0 8 1 1512 0 0)
(rest 1512 0)
(grant 5000 1 1 6512 0 0)
(rest 6512 0)
''')

cases.worked('m3', 'after a normal grant to 2, normal from 2 while that packet runs: granted, 2 moves', example('''
(normal 0 2 512)
(normal 100 2 512)
(until 10000)
'''), '''
(nodes 4 hubs 2)
(grant 0 2 1 1512 1 0)
(grant 1512 2 1 3024 2 1412)
(rest 3024 1)
''')

cases.worked(
    'm4', 'after a normal grant to 2, high from 4: 1 move; then normal from 2 and 3 while that one runs: node 3, 1 move', example('''
(reserve 0 4 1 512)
(normal 100000 2 512)
(high 100100 4 512)
(normal 102000 2 512)
(normal 102000 3 512)
(until 110000)
'''), '''
(nodes 4 hubs 2)
(grant 100000 2 1 101512 1 0)
(grant 101512 4 2 103024 1 1412)
(grant 103024 3 1 104536 1 1024)
(grant 104536 2 1 106048 2 2536)
(rest 106048 1)
''')

cases.worked('m5', '29 packets of 2,001 give 17, of 2,000 fill the frame: nothing else fits', example('''
(reserve 0 1 29 2001)
(reserve 0 1 29 2000)
(reserve 0 2 1 512)
(reserve 0 1 29 2001)
(reserve 0 2 1 512)
'''), '''
(nodes 4 hubs 2)
(refused 12 17)
(refused 14 17)
(refused 15 17)
(refused 16 17)
''')

cases.worked('m6', 'n = 64 passes row 14 (and is refused by 17), 65 gives 14; n = 0 with b = 512 gives 15', example('''
(reserve 0 1 64 512)
(reserve 0 1 65 512)
(reserve 0 1 0 512)
'''), '''
(nodes 4 hubs 2)
(refused 12 17)
(refused 13 14)
(refused 14 15)
''')

M7 = example('''
(normal 0 1 511)
(normal 0 1 512)
(normal 0 2 12001)
(normal 0 2 12000)
(reserve 0 3 1 511)
(reserve 0 3 1 512)
(reserve 0 4 1 12001)
(reserve 0 4 1 12000)
(high 0 3 511)
(high 0 3 512)
(high 0 3 12000)
(high 0 3 12001)
(until 50000)
''')
cases.worked('m7', '512 and 12,000 pass row 15, 511 and 12,001 do not, in all three events', strict(M7), '''
(nodes 4 hubs 2)
(refused 13 15)
(refused 15 15)
(refused 17 15)
(refused 19 15)
(refused 21 15)
(refused 22 16)
(refused 23 16)
(refused 24 15)
(grant 0 1 1 1512 0 0)
(grant 1512 2 1 14512 1 1512)
(rest 14512 1)
''')

cases.worked('m8', 'high at 100,000 granted, 1 move; again at 100,500: rest at 105,000, 1 move; grant at 200,000, 3 moves', example('''
(reserve 0 3 1 4000)
(high 100000 3 4000)
(high 100500 3 4000)
(until 200000)
(until 200001)
'''), '''
(nodes 4 hubs 2)
(grant 100000 3 2 105000 1 0)
(rest 105000 1)
(grant 200000 3 2 205000 3 99500)
''')

cases.worked('m9', 'a step with its bound equal to the due instant is quiet: at 0, and at the end of the busy line', example('''
(normal 0 1 512)
(until 0)
(off 0 5)
(until 1512)
(off 1512 5)
(off 1513 5)
'''), '''
(nodes 4 hubs 2)
(refused 14 13)
(grant 0 1 1 1512 0 0)
(refused 16 13)
(rest 1512 0)
(refused 17 13)
''')

cases.worked('m10-interrupt', 'interrupt 12,999: 2', plan(100000, 1000, 12999, '(hub', '(node)', ')'), '(refused 3 2)')
cases.worked('m10-six-levels', 'six levels: 3', plan(100000, 1000, 13000, *['(hub'] * 6, '(node)', *[')'] * 6), '(refused 9 3)')
