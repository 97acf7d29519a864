"""The largest plan, and the most lines."""
from .case import EXAMPLE, Cases, as_bytes, lines_of, plan, strict

cases = Cases()


def tree(levels, extra=()):
    """Two hubs below each hub but the last level's, and eight nodes in each, four on either side."""
    below = (tree(levels - 1) * 2 if levels > 1 else []) + list(extra)
    return ['(hub', *['(node)'] * 4, *below, *['(node)'] * 4, ')']


LARGEST = tree(5, tree(1))  # 31 hubs and one more below the root: 32, with 256 nodes


def share(k):
    return 1 + k % 3, 512 + 37 * (k % 20)


load = [f'(reserve {k} {k} {share(k)[0]} {share(k)[1]})' for k in range(1, 257)]
load += [f'(normal 300 {k} {512 + k})' for k in range(256, 0, -1)]
for f in (1, 2, 3):
    start = 1000000 * f
    load += [f'(high {start} {k} {share(k)[1]})' for k in range(1, 257)]
    load += [f'({"high" if k % 2 else "normal"} {start + 1000 * k} {k} 512)' for k in range(1, 257)]
    load += [f'(reserve {start + 300000} {k} 0 0)' for k in range(f, 257, 16)]
cases.by_model(
    'largest-load', 'the largest plan: all 256 nodes reserve, then ask in both classes over three frames, some give up',
    strict(plan(1000000, 96, 12096, *LARGEST)) + load + ['(until 5000000)'])

late = [f'(reserve 0 {k} 1 {600 if k % 5 else 512})' for k in range(256, 0, -1)]
late += [f'(high 4000000 {k} 512)' for k in range(1, 257, 2)]
late += [f'(normal 4000000 {k} {12000 - k})' for k in range(2, 257, 2)]
late += [f'(high {4010000 + 9000 * k} {k} 512)' for k in range(1, 257)]
late += [f'(high {6400000 + 500 * k} {k} {600 if k % 7 == 0 and k % 5 else 512})' for k in range(1, 257)]
late += [f'(reserve 7999000 {k} {k % 2} {512 * (k % 2)})' for k in range(1, 257)]
late += ['(until 12000000)']
cases.by_model(
    'largest-held',
    'the largest plan with long overhead: 256 held requests at one frame start, of which the even nodes and the long ones turn normal',
    plan(4000000, 9000, 21000, *LARGEST) + late)

cases.worked('largest-plan-ends', 'nodes 1, 2 and 256 of the largest plan, and 257', plan(4000000, 50000, 62000, *LARGEST) + lines_of('''
(normal 0 256 512)
(normal 0 257 512)
(normal 0 1 512)
(normal 60000 1 512)
(normal 60000 2 512)
(until 1000000)
'''), '''
(nodes 256 hubs 32)
(refused 325 13)
(grant 0 1 1 50512 0 0)
(grant 50512 256 1 101024 0 50512)
(grant 101024 1 1 151536 0 41024)
(grant 151536 2 1 202048 0 91536)
(rest 202048 0)
''')

cases.by_model('many-refusals', '3,000 empty lines', as_bytes(EXAMPLE) + b'\n' * 3000)
cases.by_model(
    'many-grants', 'two thousand requests of four nodes, each its turn',
    EXAMPLE + [f'(normal {1512 * i} {1 + i * 7 % 4} 512)' for i in range(2000)] + ['(until 4000000)'])
