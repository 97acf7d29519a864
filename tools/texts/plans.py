"""Plan texts, each with the first line of its log, worked out by hand from document 01 and never by running a reader."""
from .case import EXAMPLE, Cases, as_bytes, figures, plan

cases = Cases()

FIGURES = figures(100000, 1000, 13000)


def case(name, what, line):
    """`what` is a list of lines, each ended by LF, or the whole text as a string."""
    cases.planned(name, what.encode() if isinstance(what, str) else what, line)


def text(lines):
    return as_bytes(lines).decode()


def one_node(frame, overhead, interrupt):
    return plan(frame, overhead, interrupt, '(hub', '(node)', ')')


def taken(nodes, hubs):
    return f'(nodes {nodes} hubs {hubs})'


def refused(line, number):
    return f'(refused {line} {number})'


case("document 01's plan", EXAMPLE, taken(4, 2))
case('the least plan', FIGURES + ['(hub', '(node)', ')'], taken(1, 1))
case('events behind the plan are not the plan', EXAMPLE + ['(until 5)'], taken(4, 2))
case('a bracket too many is an event line', EXAMPLE + [')'], taken(4, 2))
case('anything may follow the plan, an unended line too', text(EXAMPLE) + 'x', taken(4, 2))

# figures at both ends of their ranges, and one outside
case('T at its least', one_node(100000, 0, 12000), taken(1, 1))
case('T below', one_node(99999, 0, 12000), refused(1, 2))
case('T at its most', one_node(4000000, 0, 12000), taken(1, 1))
case('T above', one_node(4000001, 0, 12000), refused(1, 2))
case('T is 0', one_node(0, 0, 12000), refused(1, 2))
case('O at its least', one_node(100000, 0, 12000), taken(1, 1))
case('O at its most', one_node(100000, 50000, 62000), taken(1, 1))
case('O above', one_node(100000, 50001, 62001), refused(2, 2))
case('D at its least with O = 0', one_node(100000, 0, 12000), taken(1, 1))
case('D below with O = 0', one_node(100000, 0, 11999), refused(3, 2))
case('D at its least with O = 1,000', one_node(100000, 1000, 13000), taken(1, 1))
case('D below with O = 1,000', one_node(100000, 1000, 12999), refused(3, 2))
case('D at its least with O = 50,000', one_node(100000, 50000, 62000), taken(1, 1))
case('D below with O = 50,000', one_node(100000, 50000, 61999), refused(3, 2))
case('D at its most', one_node(100000, 0, 100000), taken(1, 1))
case('D above', one_node(100000, 0, 100001), refused(3, 2))
case('D at its most in the longest frame', one_node(4000000, 50000, 4000000), taken(1, 1))
case('D above in the longest frame', one_node(4000000, 50000, 4000001), refused(3, 2))
case('the first line decides, T before O', one_node(99999, 50001, 1), refused(1, 2))
case('the first line decides, O before D', one_node(100000, 50001, 1), refused(2, 2))

# the limits of the tree
case('32 ports', FIGURES + ['(hub'] + ['(node)'] * 32 + [')'], taken(32, 1))
case('33 ports, the last a node', FIGURES + ['(hub'] + ['(node)'] * 33 + [')'], refused(37, 3))
case('33 ports, the last empty', FIGURES + ['(hub'] + ['(node)'] * 32 + ['(empty)', ')'], refused(37, 3))
case('33 ports, the last a hub', FIGURES + ['(hub'] + ['(node)'] * 32 + ['(hub', '(node)', ')', ')'], refused(37, 3))
case('32 ports in an inner hub', FIGURES + ['(hub', '(hub'] + ['(empty)'] * 31 + ['(node)', ')', ')'], taken(1, 2))
case('33 ports in an inner hub', FIGURES + ['(hub', '(hub'] + ['(empty)'] * 33 + [')', '(node)', ')'], refused(38, 3))
case('an inner hub is one port of its parent', FIGURES + ['(hub'] + ['(hub', '(node)', ')'] + ['(empty)'] * 31 + [')'], taken(1, 2))
case('and so the 33rd port is refused', FIGURES + ['(hub'] + ['(hub', '(node)', ')'] + ['(empty)'] * 32 + [')'], refused(39, 3))
inner = ['(hub', '(node)', ')']
case('32 hubs', FIGURES + ['(hub'] + inner * 31 + [')'], taken(31, 32))
case('33 hubs', FIGURES + ['(hub'] + inner * 32 + [')'], refused(98, 3))
eight = ['(hub'] + ['(node)'] * 32 + [')']
case('256 nodes', FIGURES + ['(hub'] + eight * 8 + [')'], taken(256, 9))
case('257 nodes', FIGURES + ['(hub'] + eight * 8 + ['(node)', ')'], refused(277, 3))
case('257 nodes, the last in a hub of its own', FIGURES + ['(hub'] + eight * 8 + ['(hub', '(node)', ')', ')'], refused(278, 3))


def deep(levels):
    return FIGURES + ['(hub'] * levels + ['(node)'] + [')'] * levels


case('1 level', deep(1), taken(1, 1))
case('5 levels', deep(5), taken(1, 5))
case('6 levels', deep(6), refused(9, 3))
case('6 levels behind a second branch',
     FIGURES + ['(hub'] + ['(hub'] * 4 + ['(node)'] + [')'] * 4 + ['(hub'] * 5 + ['(node)'] + [')'] * 6, refused(18, 3))
case('5 levels twice', FIGURES + ['(hub'] + (['(hub'] * 4 + ['(node)'] + [')'] * 4) * 2 + [')'], taken(2, 9))
case('the root without ports', FIGURES + ['(hub', ')'], refused(5, 3))
case('an inner hub without ports', FIGURES + ['(hub', '(node)', '(hub', ')', ')'], refused(7, 3))
case('a plan without a node', FIGURES + ['(hub', '(empty)', ')'], refused(6, 3))
case('a plan of hubs without a node', FIGURES + ['(hub', '(hub', '(empty)', ')', ')'], refused(8, 3))
case('32 empty ports, and no row speaks before the next line', FIGURES + ['(hub'] + ['(empty)'] * 32 + [')'], refused(37, 3))
case('32 empty ports and one more', FIGURES + ['(hub'] + ['(empty)'] * 33 + [')'], refused(37, 3))

# the text ends after each line, and each line without its LF
for n in range(len(EXAMPLE)):
    case(f'the text ends after {n} lines', EXAMPLE[:n], refused(n + 1, 1))
for n in range(len(EXAMPLE)):
    case(f'line {n + 1} without its LF', text(EXAMPLE[:n]) + EXAMPLE[n], refused(n + 1, 1))
case('one byte', '(', refused(1, 1))
case('one LF', '\n', refused(1, 1))

# forms
case('a line of 80 bytes', ['(frame ' + '1' * 72 + ')'] + EXAMPLE[1:], refused(1, 1))
case('a line of 81 bytes', ['(frame ' + '1' * 73 + ')'] + EXAMPLE[1:], refused(1, 1))
case('a port line of 81 bytes', EXAMPLE[:4] + ['(node)' + ' ' * 75] + EXAMPLE[5:], refused(5, 1))
case('a number of 16 digits', ['(frame 1234567890123456)'] + EXAMPLE[1:], refused(1, 2))
case('a number of 17 digits', ['(frame 12345678901234567)'] + EXAMPLE[1:], refused(1, 1))
case('a number of 20 digits that is 100,000 in 64 bits', ['(frame 18446744073709651616)'] + EXAMPLE[1:], refused(1, 1))
case('0', one_node(100000, '0', 12000), taken(1, 1))
case('00', one_node(100000, '00', 12000), refused(2, 1))
case('a leading zero', one_node('0100000', 0, 12000), refused(1, 1))
case('no number', one_node('', 0, 12000), refused(1, 1))
case('a sign', one_node('+100000', 0, 12000), refused(1, 1))
case('a fraction', one_node('100000.0', 0, 12000), refused(1, 1))
case('two numbers', one_node('100000 1', 0, 12000), refused(1, 1))
case('two spaces', one_node(' 100000', 0, 12000), refused(1, 1))
case('a space before the bracket', one_node('100000 ', 0, 12000), refused(1, 1))
case('a space before the form', [' (frame 100000)'] + EXAMPLE[1:], refused(1, 1))
case('a space behind the form', ['(frame 100000) '] + EXAMPLE[1:], refused(1, 1))
case('a tab for the space', ['(frame\t100000)'] + EXAMPLE[1:], refused(1, 1))
case('no bracket', ['(frame 100000'] + EXAMPLE[1:], refused(1, 1))
case('CR before the LF', '\r\n'.join(EXAMPLE) + '\r\n', refused(1, 1))
case('upper case', ['(FRAME 100000)'] + EXAMPLE[1:], refused(1, 1))
case('figures in another order', [EXAMPLE[1], EXAMPLE[0]] + EXAMPLE[2:], refused(1, 1))
case('a figure twice', [EXAMPLE[0], EXAMPLE[0]] + EXAMPLE[2:], refused(2, 1))
case('an empty line', EXAMPLE[:3] + [''] + EXAMPLE[3:], refused(4, 1))
case('a fourth figure', EXAMPLE[:3] + ['(interrupt 13000)'] + EXAMPLE[3:], refused(4, 1))
case('the root is no node', FIGURES + ['(node)'], refused(4, 1))
case('the root is no bracket', FIGURES + [')'], refused(4, 1))
case('the root is no empty port', FIGURES + ['(empty)'], refused(4, 1))
case('(hub with a bracket', FIGURES + ['(hub)', '(node)', ')'], refused(4, 1))
case('(hub with a space', FIGURES + ['(hub ', '(node)', ')'], refused(4, 1))
case('(node without its bracket', FIGURES + ['(hub', '(node', ')'], refused(5, 1))
case('(node) with a space', FIGURES + ['(hub', '(node) ', ')'], refused(5, 1))
case('(empty) in upper case', FIGURES + ['(hub', '(Empty)', ')'], refused(5, 1))
case('a bracket with a space', FIGURES + ['(hub', '(node)', ' )'], refused(6, 1))
case('two brackets on a line', FIGURES + ['(hub', '(hub', '(node)', '))'], refused(7, 1))
case('an event inside the plan', FIGURES + ['(hub', '(until 5)', '(node)', ')'], refused(5, 1))
case('a figure inside the plan', FIGURES + ['(hub', '(frame 100000)', '(node)', ')'], refused(5, 1))
case('no form where a limit is passed too', FIGURES + ['(hub'] + ['(node)'] * 32 + ['(nodes)', ')'], refused(37, 1))
case('a byte above 127', EXAMPLE[:4] + ['(n\u00f6de)'] + EXAMPLE[5:], refused(5, 1))

# the longest texts
left = 65536 - len(text(EXAMPLE))
case('65,536 bytes', text(EXAMPLE) + '(until 1)\n' * (left // 10) + 'x' * (left % 10), taken(4, 2))
# (no plan reaches byte 65,536: one has at most some 1,100 lines, each of at most 20 bytes)
