"""Both ends of every range: figures, times, ports and the length of a text."""
from .case import EXAMPLE, Cases, as_bytes, example, plan, strict, two

cases = Cases()

cases.worked('T-least', 'T = 100,000, O = 0, D = 12,000, both lengths at their most', two(100000, 0, 12000, '''
(reserve 0 1 1 12000)
(normal 99999 2 12000)
(high 100000 1 12000)
(until 200000)
'''), '''
(nodes 2 hubs 1)
(grant 99999 2 1 111999 0 0)
(grant 111999 1 2 123999 0 11999)
(rest 123999 0)
''')

cases.worked('T-O-D-most', 'T = 4,000,000, O = 50,000, D = T', strict(two(4000000, 50000, 4000000, '''
(reserve 0 1 1 512)
(reserve 0 1 0 0)
(normal 3999999 2 12000)
(high 4000000 1 512)
(normal 4000000 1 512)
(until 5000000)
''')), '''
(nodes 2 hubs 1)
(refused 9 17)
(grant 3999999 2 1 4061999 0 0)
(refused 12 16)
(grant 4061999 1 1 4112511 0 61999)
(rest 4112511 0)
''')

cases.worked(
    'O-most-in-the-least-frame', 'T = 100,000, O = 50,000, D = 62,000: the longest packet, over a frame start',
    two(100000, 50000, 62000, '''
(reserve 0 1 1 12000)
(reserve 0 1 0 0)
(normal 99999 1 12000)
(until 161999)
(until 162000)
'''), '''
(nodes 2 hubs 1)
(refused 8 17)
(grant 99999 1 1 161999 0 0)
(rest 161999 0)
''')

for name, figures, log in (
        ('T-below', (99999, 0, 12000), '(refused 1 2)'), ('T-above', (4000001, 0, 12000), '(refused 1 2)'),
        ('T-zero', (0, 0, 12000), '(refused 1 2)'),
        ('T-16-digits', (9999999999999999, 0, 12000), '(refused 1 2)'), ('T-17-digits', (99999999999999999, 0, 12000), '(refused 1 1)'),
        ('O-above', (100000, 50001, 62001), '(refused 2 2)'), ('O-16-digits', (100000, 9999999999999999, 62001), '(refused 2 2)'),
        ('D-below', (100000, 0, 11999), '(refused 3 2)'), ('D-below-with-O', (100000, 50000, 61999), '(refused 3 2)'),
        ('D-above', (100000, 0, 100001), '(refused 3 2)'), ('D-above-in-the-longest', (4000000, 0, 4000001), '(refused 3 2)'),
        ('D-least', (100000, 0, 12000), '(nodes 2 hubs 1)'), ('D-least-with-O', (100000, 50000, 62000), '(nodes 2 hubs 1)'),
        ('D-most', (100000, 50000, 100000), '(nodes 2 hubs 1)'), ('T-most', (4000000, 0, 12000), '(nodes 2 hubs 1)')):
    cases.worked(name, 'the figures T = {}, O = {}, D = {}'.format(*figures), two(*figures, []), log)

cases.worked('last-grant', 'a grant at 10^15 - 1: its end lies behind every time that an event can have', example('''
(normal 0 1 512)
(normal 999999999999999 1 12000)
(until 1000000000000000)
(normal 1000000000000000 2 12000)
(off 1000000000000001 2)
'''), '''
(nodes 4 hubs 2)
(grant 0 1 1 1512 0 0)
(rest 1512 0)
(grant 999999999999999 1 1 1000000000012999 0 0)
(refused 16 11)
''')

cases.worked('last-frame', 'a request held to the frame start at 10^15, which no step can reach', example('''
(reserve 0 3 1 4000)
(high 999999999900000 3 4000)
(high 999999999900500 3 4000)
(until 1000000000000000)
(reserve 1000000000000000 3 0 0)
(high 1000000000000000 3 4000)
(until 1000000000000001)
(high 1000000000000000 3 4001)
'''), '''
(nodes 4 hubs 2)
(grant 999999999900000 3 2 999999999905000 1 0)
(rest 999999999905000 1)
(refused 18 11)
(refused 19 16)
''')

cases.worked('port-32', 'the only node at port 32: the pointer goes one past it, and round', plan(
    100000, 1000, 13000, '(hub', *['(empty)'] * 31, '(node)', ')', '(normal 0 1 512)', '(normal 100 1 512)', '(until 5000)'), '''
(nodes 1 hubs 1)
(grant 0 1 1 1512 0 0)
(grant 1512 1 1 3024 0 1412)
(rest 3024 0)
''')

cases.worked('port-32-five-levels', 'port 32 of five hubs, one below the other', plan(
    100000, 1000, 13000, *['(hub', *['(empty)'] * 31] * 5, '(node)', *[')'] * 5,
    '(normal 0 1 512)', '(normal 100 1 512)', '(until 5000)'), '''
(nodes 1 hubs 5)
(grant 0 1 1 1512 4 0)
(grant 1512 1 1 3024 8 1412)
(rest 3024 4)
''')


def of_length(length):
    """A text of just so many bytes; its last line would be refused by 13, the others do nothing."""
    left = length - len(as_bytes(EXAMPLE + ['(off 10 5)']))
    return as_bytes(EXAMPLE + ['(until 0)'] * (left // 10 - left % 10) + ['(until 10)'] * (left % 10) + ['(off 10 5)'])


cases.worked('cut-exact', '65,536 bytes, the last of them an LF: its line is taken', of_length(65536), '''
(nodes 4 hubs 2)
(refused 6555 13)
''')

cases.worked('cut-behind-an-lf', 'the same and three lines behind it, which are not there', of_length(65536) + b'(off 10 5)\n' * 3, '''
(nodes 4 hubs 2)
(refused 6555 13)
''')

cases.worked('cut-the-last-lf', '65,537 bytes: only the last LF is cut off, so its line is refused by 1', of_length(65537), '''
(nodes 4 hubs 2)
(refused 6555 1)
''')
