"""The vectors, with their own logs: a text that stands in several folders has the log of the request that landed last (tools/landed)."""
from .case import Cases
from .suite import ROOT

cases = Cases()

VECTORS = ROOT.parent / 'shared/vectors'


def landed():
    lines = (ROOT / 'tools/landed').read_text().splitlines()
    return [int(line) for line in lines if line and not line.startswith('#')]


def latest_texts():
    latest = {path.name: path for folder in [VECTORS, *(VECTORS / f'after-{n}' for n in landed())] for path in folder.glob('*.text')}
    return sorted(latest.values(), key=lambda path: path.stem)


for path in latest_texts():
    if b'\0' not in path.read_bytes():  # which stands between two texts of the suite
        cases.vector(path.stem, path.read_bytes(), path.with_suffix('.log').read_bytes())
