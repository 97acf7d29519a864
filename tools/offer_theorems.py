"""What is asked about offers behind a list of calls, with its answer, written as theorems about the definitions of requests 9 and 10, which
the checker computes. They are over cells: the plan's text is read into the plan's, and the calls are made on the cascade's."""
import functools
import pathlib
import re
import sys

from call_vectors import files_of, read_call, sections
from random_runs import check
from theorems import as_call, as_list

CRATES = pathlib.Path(__file__).resolve().parent.parent / 'crates'

# The files whose definitions are computed: what they mark as `unfoldable` is unfolded.
COMPUTED = {
    'text': ['Number', 'Line', 'Word', 'Form'],
    'plan_tree': ['Kind', 'Tables'],
    'plan': ['Tables', 'Reading'],
    'trials': ['Text'],
    'rules': ['Choice', 'Core'],
    'ports': ['Mask', 'Ports', 'Search'],
    'cells': ['Layout', 'Decode', 'Fresh', 'Masks', 'Waits', 'Build', 'Frames', 'Instants', 'Turns', 'Calls', 'Run'],
    'offers': ['Offers'],
}

HEAD = '''use Rattle.std.proofs.Common.{ℕ, ◌≡◌, refl, List, [], ◌∷◌, reverse}
use Rattle.rules.specs.Call.{Call, normal, high, ask, off, reserve, until, step}
'''

# Questions


class Question:
    """A function of a plan's text, a list of calls and what is asked behind them; and the files whose definitions it is computed by."""

    def __init__(self, function, definition, computed):
        self.function, self.definition, self.computed = function, definition, computed

    @functools.cached_property
    def unfolded(self):
        """The names of the definitions, by their file's."""
        specs = [(crate, file) for crate, files in self.computed.items() for file in files]
        texts = {f'{crate}.specs.{file}': (CRATES / crate / 'specs' / f'{file}.antt').read_text() for crate, file in specs}
        return {file: re.findall(r'^ *unfoldable pub (\S+)', text, re.MULTILINE) for file, text in texts.items()}

    def file(self, theorems):
        """These theorems and plans, with all that they need."""
        uses = [f'use Rattle.{file}.{{{", ".join(names)}}}\n' for file, names in self.unfolded.items()]
        return ''.join([HEAD, *uses, self.definition, *theorems])

    def theorem(self, plan, name, calls, asked, answer):
        """By its name the checker tells which one differs."""
        opened = '\n    '.join(' '.join(names) for names in self.unfolded.values())
        return f'''
{name} : {self.function} {plan} {as_list(map(as_call, calls))} {' '.join(asked)} ≡ {answer}
unfolding
    {opened}
{name} = refl
'''


OFFERED = Question('offered', '''use Rattle.offers.specs.Offers.{clock_of}

-- the answer to these numbers at the clock behind the calls, and the whole buffer that is left
abbrev offered : List ℕ → List Call → List ℕ → List ℕ → List ℕ
offered text calls numbers buffer =
    let P = (reading text).tables in
    let s = (made_by P (reverse calls)).cells in
    offers_row numbers buffer ∷ offers_left P (clock_of s) s numbers buffer
''', COMPUTED)

FITTED = Question('fitted', '''use Rattle.offers.specs.Offers.{Offer, clock_of}
use Rattle.fit.specs.Change.{Fit, Answer, Packets, Bits, Release, Nothing}

-- what would make n packets of b bits of node k fit, at the clock behind the calls
abbrev fitted : List ℕ → List Call → ℕ → ℕ → ℕ → Fit
fitted text calls k n b =
    let P = (reading text).tables in
    let s = (made_by P (reverse calls)).cells in
    fit_for P (clock_of s) s (record { node = k; packets = n; bits = b })
''', {**COMPUTED, 'fit': ['Fit']})


def plan_definition(name, lines):
    return f'''
abbrev {name} : List ℕ
{name} = text_of {as_list(f'"{line}"' for line in lines)}
'''


# Lists: the name and the lines of a plan, with all that is asked of it


def asked_in(name, section, asked_by):
    """What is asked of a plan of the vectors, each behind the calls before it. No line is passed over."""
    calls = []
    for vector in section.vectors:
        if (made := read_call(vector.call)) is not None:
            calls.append(made)
        elif (asked := asked_by(f'{name}-line{vector.line}', [*calls], vector)) is not None:
            yield asked
        else:
            sys.exit(f"line {vector.line} of {name}: '{vector.call}' is no call, and not what is asked there")


def vector_lists(request, asked_by):
    """Those of a request's vectors. Of each line that is no call `asked_by` makes what is asked, of its name, the calls before it and
    itself; or None. No name begins with a digit."""
    for path in files_of(request):
        name = path.stem.removeprefix(f'{request:02}-')
        for section in sections(path):
            yield f'{name}-plan{section.line}', section.plan, list(asked_in(name, section, asked_by))


def theorems_of(lists):
    for plan, lines, all_asked in lists:
        yield plan_definition(plan, lines)
        yield from (asked.theorem(plan) for asked in all_asked)


# The checker


def hold(question, lists, tool, seed):
    """Has the checker compute all of these lists, and ends the tool where it refuses one: with a line of each, which names it."""
    done = check(question.file(theorems_of(lists)), *question.computed)
    if done.returncode:
        told_by = [line for line in (done.stdout + done.stderr).splitlines() if 'unchanged' not in line]
        refused = [re.sub('^[^ ]*/', '', line) for line in told_by if 'error: ' in line]
        print('\n'.join(line[:300] for line in refused or told_by[:8]))
        sys.exit(f'{tool}: the definitions differ from the vectors or the model, or the check failed (seed {seed})')
