"""What bayctl proves, for those who read an audit: scenarios of cases that break a rule, and the
least condition of each release by its cases."""
from collections.abc import Iterator, Sequence
from dataclasses import dataclass, field

from baytools.bay.conditions import Condition, TooLarge, Variable
from baytools.bay.cubes import EXACT, condition_of, products_of, without
from baytools.bay.rules import INPUT, MEASURE, SWITCH, Rule
from baytools.common.ending import Failed
from baytools.common.positions import POSITIONS
from baytools.common.texts import upcase

from .answers import LEAST, MOST, WAYS, Answer, Case, Lost, Release
from .replays import scans_of
from .variables import Bay, Thing, all_things

FREE = {SWITCH: 1, INPUT: 0, MEASURE: 0}  # the value of what a case leaves free


def complete_state(case: Case, things: list[Thing]) -> dict:
    """A state of a bay that lies in a case."""
    state = {}
    for thing in things:
        ranges = case.values.get(thing.key, ((FREE[thing.kind], FREE[thing.kind]),))
        state[thing.key] = FREE[thing.kind] if case.allows(thing.key, FREE[thing.kind]) else (
            ranges[0][0])
    return state


@dataclass
class Shown:
    """A state that breaks a rule, its scenario, and whether a replay of it breaks the rule."""
    state: dict
    lines: list[str]
    is_so: bool


def example(case: Case, things: list[Thing]) -> dict:
    """The state by which bayctl shows that a rule with a time is broken: of each position and
    measure the least, and of an input the greatest, that the case allows."""
    state = {}
    for thing in things:
        usual = (LEAST, MOST) if thing.kind == MEASURE else (0, len(thing.values) - 1)
        ranges = case.values.get(thing.key, (usual,))
        state[thing.key] = max(most for _, most in ranges) if thing.kind == INPUT else min(
            least for least, _ in ranges)
    return state


def moments_of(rule) -> list[int]:
    """When a case that breaks a rule is scanned. One that forbids until a condition has held for a
    time is broken before the time is over, and one that demands after it at its end."""
    if rule.since is None:
        return [0]
    return [0, rule.since.time if rule.wanted else rule.since.time - 1]


def replay_case(bay: Bay, rule, case: Case, bayctl) -> Shown:
    """A case that breaks a rule, replayed."""
    things, moments = list(all_things(bay.file)), moments_of(rule)
    state = (example if rule.since else complete_state)(case, things)
    lines = [thing.line(0, state[thing.key]) for thing in things]
    lines += [f'{moment} scan' for moment in moments]
    scans = list(scans_of(bayctl, bay.scenario(lines)))[:len(moments)]
    if len(scans) < len(moments):
        raise Failed('bayctl: it printed too few scans')
    after = rule.since.condition if rule.since and rule.wanted else lambda state: True
    is_broken = any(map(rule.breaks, scans[-1:] if rule.wanted else scans))
    return Shown(state, lines, bool(rule.condition(state) and after(state)) and is_broken)


def case_text(case: Case, things: list[Thing]) -> str:
    """A case in words."""
    parts = []
    for thing in things:
        ranges = case.values.get(thing.key)
        if ranges is not None:
            parts.append(f'{thing.name} ' + '|'.join(range_text(thing, *it) for it in ranges))
    return ', '.join(parts) or 'anything'


def range_text(thing: Thing, least: int, most: int) -> str:
    if thing.kind != MEASURE:
        return '|'.join(str(thing.value_text(value)) for value in range(least, most + 1))
    if least == most:
        return str(least)
    return f'up to {most}' if least == LEAST else f'from {least}' if most == MOST else (
        f'{least} to {most}')


# ---- releases

@dataclass
class Derived:
    """When a release is given: always under a condition, and under others only if the program's
    variables and timers that are named let it."""
    condition: Condition
    hanging: list[tuple[tuple, Condition]] = field(default_factory=list)

    def lines(self) -> list[str]:
        """The words of each product; behind what it depends on is said so."""
        found = self.condition.lines() if self.condition.products or not self.hanging else []
        return found + [f'{line} (depends on {", ".join(kept)})'
                        for kept, condition in self.hanging for line in condition.lines()]

    def is_never(self) -> bool:
        """Whether it is given nowhere."""
        return not self.condition.products and not self.hanging


def variable_of(thing: Thing, cases: list[Case], rules: list[Rule]) -> Variable:
    """A thing with the values between which some cases and rules tell."""
    if thing.kind == SWITCH:
        return Variable(thing.name, POSITIONS)
    if thing.kind == INPUT:
        return Variable(thing.name, ('0', '1'), True)
    ranges = [it for case in cases for it in case.values.get(thing.key, ())]
    ranges += [(it, it) for rule in rules for it in rule.constants.get(thing.key, ())]
    begins = sorted({LEAST, *(least for least, _ in ranges),
                     *(most + 1 for _, most in ranges if most < MOST)})
    found = tuple(zip(begins, [*(begin - 1 for begin in begins[1:]), MOST]))
    return Variable(thing.name, tuple(range_text(thing, *it) for it in found), ranges=found)


def firsts_of(variable: Variable) -> list[int]:
    """The least number of each value."""
    return [least for least, _ in variable.ranges] or list(range(len(variable.values)))


def cube_of(case: Case, things: list[Thing], variables: list[Variable]) -> tuple:
    """The values that a case allows of each variable, as bits."""
    return tuple(sum(case.allows(thing.key, value) << at
                     for at, value in enumerate(firsts_of(variable)))
                 for thing, variable in zip(things, variables))


def asking(rule: Rule, values: dict[tuple, list[int]], state: dict) -> Iterator[dict]:
    """The states in which a rule asks for what it names, each as far as the rule looks at it."""
    try:
        if rule.applies(state):
            yield state
    except KeyError as unknown:
        key = unknown.args[0]
        for value in values[key]:
            yield from asking(rule, values, state | {key: value})


def rule_cubes(rule: Rule, things: list[Thing], variables: list[Variable]) -> list[tuple]:
    """Where a rule asks for what it names, as cubes; TooLarge where these are too many."""
    values = {thing.key: firsts_of(it) for thing, it in zip(things, variables)}
    cubes = []
    for state in asking(rule, values, {}):
        cubes.append(tuple(sum((state.get(thing.key, value) == value) << at
                               for at, value in enumerate(values[thing.key])) for thing in things))
        if len(cubes) > EXACT:
            raise TooLarge
    return products_of(cubes, [len(it.values) for it in variables])[0]


def derive_release(release: Release, bay_file: dict, rules: list[Rule]) -> Derived:
    """When a release is given, by its cases, and none of the rules asks for it."""
    named = {key for case in release.cases for key in case.values}
    named |= {key for rule in rules for key in rule.names}
    things = [thing for thing in all_things(bay_file) if thing.key in named]
    variables = [variable_of(thing, release.cases, rules) for thing in things]
    asked = [cube for rule in rules for cube in rule_cubes(rule, things, variables)]

    def condition(kept: tuple) -> Condition:
        cubes = [cube_of(case, things, variables) for case in release.cases if case.kept == kept]
        return condition_of(variables, without(cubes, asked))

    groups = dict.fromkeys(case.kept for case in release.cases if case.kept)
    hanging = [(kept, condition(kept)) for kept in groups]
    return Derived(condition(()), [it for it in hanging if it[1].products])


def lost_table(answer: Answer | None, bay_file: dict) -> list[tuple[str, str, str]]:
    """What is told of opening and of closing each switch while the process is lost; nothing where
    bayctl does not tell it."""
    return state_table(answer.lost if answer else [], bay_file)


def start_table(answer: Answer | None, bay_file: dict) -> list[tuple[str, str, str]]:
    """The same of the first scan after a restart."""
    return state_table(answer.start if answer else [], bay_file)


def state_table(entries: list[Lost], bay_file: dict) -> list[tuple[str, str, str]]:
    """What is told of opening and of closing each switch, if anything is."""
    told = {(it.name, it.way): f'depends on {", ".join(it.kept)}' if it.kept else it.state
            for it in entries}
    return [(switch['id'], *(told.get((upcase(switch['id']), way), '') for way in range(len(WAYS))))
            for switch in bay_file['switch'] if told]


def conditions(answer: Answer, bay_file: dict,
               rules: Sequence[Rule] = ()) -> dict[tuple[str, int], Derived | None]:
    """When each release is given and none of the rules asks for it, by the switch's id and the way;
    None where its cases are too many."""
    names = {upcase(switch['id']): switch['id'] for switch in bay_file['switch']}
    found = {}
    for it in answer.releases:
        own = [rule for rule in rules if rule.switch == it.name and it.way in rule.ways]
        try:
            release = derive_release(it, bay_file, own) if it.is_known else None
            found[names[it.name], it.way] = release
        except TooLarge:
            found[names[it.name], it.way] = None
    return found
