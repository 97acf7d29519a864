"""Row 1 of event lines: what is a form and what is none."""
from .case import EXAMPLE, Cases, as_bytes, example, refusals

cases = Cases()

cases.worked('row-1-words', 'words that are no event', example('''
(normall 0 1 512)
(norma 0 1 512)
(NORMAL 0 1 512)
(request 0 1 512)
(step 5)
(grant 0 1 1 1512 0)
(frame 100000)
(node)
(hub
)
normal 0 1 512
( 0 1 512)
'''), ['(nodes 4 hubs 2)'] + refusals(1, 12, 23))

cases.worked('row-1-spaces', 'single spaces only, in their places only; the last line is a form', example([
    '(normal  0 1 512)', '(normal 0  1 512)', '(normal 0 1  512)', '(normal 0 1 512 )', '(normal 0 1 512) ', ' (normal 0 1 512)',
    '( normal 0 1 512)', '(normal\t0 1 512)', '(until5)', '(until 5)\r', '(until\u00a05)', '(until )', '(until 5)',
]), ['(nodes 4 hubs 2)'] + refusals(1, 12, 23))

cases.worked('row-1-numbers', 'leading zeros, signs, more than 16 digits; the last line is a form', example('''
(until 00)
(until 05)
(off 5 01)
(normal 5 1 0512)
(reserve 5 1 00 0)
(until +5)
(until -5)
(until 5.0)
(until 1e3)
(until 10000000000000000)
(until 18446744073709551621)
(off 5 12345678901234567)
(normal 5 1 00000000000000512)
(until 0x5)
(until 0)
'''), '''
(nodes 4 hubs 2)
(refused 12 1)
(refused 13 1)
(refused 14 1)
(refused 15 1)
(refused 16 1)
(refused 17 1)
(refused 18 1)
(refused 19 1)
(refused 20 1)
(refused 21 1)
(refused 22 1)
(refused 23 1)
(refused 24 1)
(refused 25 1)
''')

cases.worked('row-1-brackets', 'brackets missing or too many', example([
    '(normal 0 1 512', 'normal 0 1 512)', '(normal 0 1 512))', '((normal 0 1 512)', '[normal 0 1 512]', '(normal (0) 1 512)',
    '(until 0)(until 0)', '(until 0) (until 0)', '(off 0 1 ']), ['(nodes 4 hubs 2)'] + refusals(1, 12, 20))

cases.worked('row-1-counts', 'a number too few and one too many, in each event', example('''
(until)
(until 0 1)
(off 0)
(off 0 1 2)
(normal 0 1)
(normal 0 1 512 1)
(high 0 1)
(high 0 1 512 1)
(reserve 0 1 1)
(reserve 0 1 1 512 1)
(normal)
'''), ['(nodes 4 hubs 2)'] + refusals(1, 12, 22))

cases.worked('row-1-empty-lines', 'empty lines are lines', example(['', '', '(until 0)', '']), '''
(nodes 4 hubs 2)
(refused 12 1)
(refused 13 1)
(refused 15 1)
''')

cases.worked('row-1-long-lines', '80 bytes, 81 bytes, 300 bytes; the longest form has 77', example([
    '(until 0)' + ' ' * 71, '(until 0)' + ' ' * 72, '(until ' + '0' * 72 + ')', '(until ' + '0' * 73 + ')',
    '(reserve 9999999999999999 9999999999999999 9999999999999999 9999999999999999)', 'x' * 300, '(until 0)']), '''
(nodes 4 hubs 2)
(refused 12 1)
(refused 13 1)
(refused 14 1)
(refused 15 1)
(refused 16 11)
(refused 17 1)
''')

cases.worked(
    'row-1-no-lf', 'the last line has no LF: refused, and no step is made for it',
    as_bytes(example('(normal 0 1 512)')) + b'(until 5000)', '''
(nodes 4 hubs 2)
(refused 13 1)
''')

cases.worked('row-1-one-byte-behind', 'one byte behind the last LF is a line too', as_bytes(example('(until 5)')) + b' ', '''
(nodes 4 hubs 2)
(refused 13 1)
''')

cases.worked('row-1-makes-no-step', 'a line that is no form makes no step, whatever its time would be', example('''
(normal 0 1 512)
(until 5000
(until 5000)
'''), '''
(nodes 4 hubs 2)
(refused 13 1)
(grant 0 1 1 1512 0 0)
(rest 1512 0)
''')

cases.worked('no-events', 'a plan and nothing behind it', EXAMPLE, '(nodes 4 hubs 2)')
