"""Lists of calls with their answers by the model, written as theorems about the definitions of crates/rules, which the checker computes."""
from model.calls import CLASSES, Grant, class_name

HEAD = '''use Rattle.std.proofs.Common.{ℕ, ◌≡◌, refl, true, false, List, [], ◌∷◌, reverse, get_or}
use Rattle.rules.specs.Plan.{Plan, Port, node, empty, hub}
use Rattle.rules.specs.Call.{Class, normal, high, Call, ask, off, reserve, until, step, Answer, taken, refused, grant, rest, quiet}
use Rattle.rules.specs.Choice.{any, sum, first}
use Rattle.rules.specs.Core.{advance, counts_in, counts, held, due, sought}
use Rattle.rules.specs.Control.{control, from_root, below, lowest, walk, led, nearest, choose_by, choose_from_root}
use Rattle.rules.specs.Machine.{Hub, perform}
use Rattle.rules.specs.Run.{fresh_hub, made, answers}
use Rattle.rules.specs.Control.{Control}
use Rattle.rules.specs.Travel.{walk_returns, choose_returns, call_returns}
use Rattle.rules.specs.Words.{clock_at, reserved, high_grants}
use Rattle.rules.specs.AnyMoment.{Grant, none, granted, first_grant, kept_standing, wait_limit}
use Rattle.rules.specs.AnyMomentRuns.{Figures, figures}
use Rattle.rules.specs.WaitWords.{up_at}
use Rattle.rules.specs.Waits.{come_to, watched}
use Rattle.rules.specs.WaitRuns.{waits_seen, waits_told}

-- the returns in each call of a list, from a hub on
unfoldable along : Plan → Hub Control → List Call → List ℕ
along p h [] = []
along p h (call ∷ more) = let o = perform p (control p) call h in call_returns p h o.answer ∷ along p o.hub more

-- what is worked out of a wait, but for the answers
abbrev untold : Figures → Figures
untold x = record {
    told = []; left = x.left; stands = x.stands; unchanged = x.unchanged; run = x.run; grant = x.grant; limit = x.limit }
'''


def as_call(call):
    words = (['ask'] if call.word in CLASSES else []) + call.words()
    return ' '.join(str(word) for word in words)


def as_answer(answer):
    """A grant without its wait, which is held against the definitions apart from the answers."""
    fields = [(field, value) for field, value in vars(answer).items() if field != 'wait']
    numbers = [class_name(value) if field == 'class_' else str(value) for field, value in fields]
    return ' '.join([answer.word(), *numbers])


def as_list(items):
    return '(' + ' ∷ '.join([*items, '[]']) + ')'


def as_calls(entries):
    return as_list(as_call(entry.call) for entry in entries)


def as_answers(entries):
    return as_list(as_answer(entry.answer) for entry in entries)


def truth(x):
    return 'true' if x else 'false'


def as_plan(plan):
    hubs = range(1, plan.hubs + 1)

    def table(figure):
        """A hub's figure, by its number; hub 0 has none."""
        return as_list(['0', *(str(figure(hub)) for hub in hubs)])

    def parent(hub):
        return plan.above[hub].hub if hub in plan.above else 0

    def place(hub):
        return plan.above[hub].port if hub in plan.above else 0

    def port(kind, number):
        return 'empty' if kind == 'empty' else f'{kind} {number}'
    ports = as_list(['[]', *(as_list(['empty', *(port(*each) for each in plan.ports[hub])]) for hub in hubs)])
    return f'''record {{
      frame = {plan.frame}; overhead = {plan.overhead}; interrupt = {plan.interrupt}; framing = {plan.framing};
      strict = {truth(plan.strict)};
      nodes = {plan.nodes}; hubs = {plan.hubs};
      ports = λ g. get_or {table(lambda hub: len(plan.ports[hub]))} g 0;
      port = λ g q. get_or (get_or {ports} g []) q empty;
      parent = λ g. get_or {table(parent)} g 0;
      place = λ g. get_or {table(place)} g 0;
      level = λ g. get_or {table(plan.level.get)} g 0;
    }}'''


def list_theorem(i, plan, entries, by_root):
    """The answers, the returns of the root's pointer in each call, the grants' waits as they are recorded and as the words tell them,
    and the answers by the rule 2 that document 01 had."""
    opened = f'unfolding calls{i} any sum first advance counts_in counts held due sought below lowest walk perform made'
    waits = as_list(str(entry.wait) for entry in entries if isinstance(entry.answer, Grant))
    return f'''abbrev p{i} : Plan
p{i} = {as_plan(plan)}

calls{i} : List Call
calls{i} = {as_calls(entries)}

expected{i} : List Answer
expected{i} = {as_answers(entries)}

right{i} : answers p{i} (control p{i}) calls{i} ≡ expected{i}
{opened} expected{i} led nearest choose_by
right{i} = refl

returned{i} : along p{i} (fresh_hub p{i} (control p{i})) calls{i} ≡ {as_list(str(entry.returns) for entry in entries)}
{opened} led nearest choose_by walk_returns choose_returns along
returned{i} = refl

waits{i} : List ℕ
waits{i} = {waits}

waited{i} : reverse (waits_seen (watched p{i} (control p{i}) (reverse calls{i})).past) ≡ waits{i}
{opened} led nearest choose_by waits{i} watched come_to waits_seen
waited{i} = refl

wait_told{i} : reverse (waits_told p{i} (made p{i} (control p{i}) (reverse calls{i})).past) ≡ waits{i}
{opened} led nearest choose_by waits{i} reserved up_at waits_told
wait_told{i} = refl

by_root{i} : List Answer
by_root{i} = {as_answers(by_root)}

root_right{i} : answers p{i} (from_root p{i}) calls{i} ≡ by_root{i}
{opened} by_root{i} choose_from_root
root_right{i} = refl
'''


def wait_theorem(name, i, wait):
    """Request 5's words of a high request. `figures` computes the answers too, which stand in the list's own theorem already."""
    grant = 'none' if wait.grant is None else f'granted {class_name(wait.grant.class_)} {wait.grant.time}'
    expected = (f'record {{ told = []; left = {truth(wait.left)}; stands = {truth(wait.stands)}; unchanged = {truth(wait.unchanged)};'
                f' run = {truth(wait.ran)}; grant = {grant}; limit = {wait.limit}; }}')
    return f'''
{name} : untold (figures (record {{
    plan = p{i}; node = {wait.node}; time = {wait.time}; bits = {wait.bits}; calls = {as_calls(wait.entries)}; behind = {len(wait.since)};
    expected = {expected}; }})) ≡ {expected}
unfolding figures any sum first advance counts_in counts held due sought below lowest walk led nearest choose_by perform made
    clock_at reserved high_grants first_grant kept_standing wait_limit
{name} = refl
'''
