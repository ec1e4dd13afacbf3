"""What is found of each rule: what bayctl proves of it, and what trying it shows; and what is
released in each combination that was tried, once timers have run out."""
import itertools
import random
import sys
import time
from collections.abc import Iterator
from dataclasses import dataclass, field

from baytools.bay.conditions import TooLarge, Variable, condition
from baytools.common.ending import Failed, UsageError
from baytools.common.texts import quantity, upcase

from . import answers, hazards
from .answers import Answer, Proof
from .hazards import Judgement
from .proofs import Shown, conditions, replay_case
from .replays import replay_ahead, scans_of, scenarios, timed_scenarios, timed_trace_of, trace_of
from .variables import SWITCH, WAYS

PAIRS = 200_000  # most pairs of combinations that a rule with a time is tried with
USUAL, SAMPLED = 65_536, 16_384  # combinations that are all tried; of more so many, if any need be
WHOLE = 1_048_576  # and all of these where nothing is proved, or the table is asked for
DERIVED = 262_144  # combinations from which conditions are derived


@dataclass
class Finding:
    """What was found of a rule. `proof` is bayctl's answer, None where it gives none,
    `can_apply` whether the rule's condition is ever true, and `shown` the replay of a case that
    breaks the rule. Of the trial: in how many combinations it applies and is broken, the first of
    these, `after` how many milliseconds, and the lines that lead there; `is_tried` is whether it
    was tried at all, and `note` tells where not all ways were."""
    rule: object
    proof: Proof | None = None
    can_apply: bool = True
    shown: Shown | None = None
    is_tried: bool = False
    looked: int = 0
    broken: int = 0
    first: tuple = ()
    after: int = 0
    lines: tuple = ()
    note: str = ''

    def verdict(self) -> str:
        """BROKEN, PROVED, OPEN, TRIED, or that it never applies."""
        answer = self.proof.verdict if self.proof else ''
        if self.broken or answer == answers.BROKEN:
            return 'BROKEN'
        if answer == answers.HOLDS:
            return 'PROVED' if self.can_apply else 'never applies'
        if answer in (answers.OPEN, answers.MANY):
            return 'OPEN'
        return 'TRIED' if self.looked else 'never applies'

    def is_settled(self) -> bool:
        """Whether bayctl decides it, so that it need not be tried."""
        return self.proof is not None and self.proof.verdict in (answers.HOLDS, answers.BROKEN)

    def is_doubted(self) -> bool:
        """Whether a replay speaks against what bayctl proves."""
        holds = self.proof is not None and self.proof.verdict == answers.HOLDS
        return holds and self.broken > 0 or self.shown is not None and not self.shown.is_so

    def breaks(self, combination, after, lines) -> None:
        self.broken += 1
        if self.broken == 1:
            self.first, self.after, self.lines = combination, after, tuple(lines)


@dataclass
class Audit:
    """All that was found. `answer` is what bayctl proves, or None. `table` has each combination
    that was tried, with what is released in it once timers have run out; `scans` counts the scans,
    at `offsets` after each combination is reached; `kept` has what was derived of it. `judged` is
    what was found of the hazards in a diagram, and `diagram` the name of its file, where one is
    asked for."""
    bay: object
    findings: list
    answer: Answer | None
    table: list
    offsets: list
    scans: int
    kept: dict = field(default_factory=dict)
    judged: list[Judgement] = field(default_factory=list)
    diagram: str = ''

    def has_times(self) -> bool:
        return any(it.rule.since for it in self.findings)

    def is_whole(self) -> bool:
        """Whether each combination was tried."""
        return len(self.table) == self.bay.count()


def offsets_of(program, rules: list, pause: int | None) -> list[int]:
    """The moments after a combination is reached at which it is scanned."""
    times = [rule.since.time for rule in rules if rule.since]
    longest = max([program.longest(), *times])
    if pause is not None and pause <= longest:
        raise UsageError(f'--pause {pause}: it must be more than {longest:,} ms, the longest time '
                         'of the timers and the rules')
    last = pause if pause is not None else max(60_000, 2 * sum([program.longest(), *times]))
    inner = {*program.moments(), *(at for time in times for at in (time - 1, time))}
    return [0, *sorted(at for at in inner if 0 < at < last), last]


class Progress:
    """A progress bar on standard error, where someone sees it and it takes over a second."""

    def __init__(self, count: int) -> None:
        self.count, self.done, self.shown = count, 0, 0
        self.since, self.is_seen = time.monotonic(), sys.stderr.isatty()

    def step(self) -> None:
        self.done += 1
        now = time.monotonic()
        if self.is_seen and (now - max(self.since + 0.9, self.shown) > 0.1 or
                             self.shown and self.done == self.count):
            self.shown, end = now, '\n' if self.done == self.count else ''
            filled = '#' * (40 * self.done // self.count)
            sys.__stderr__.write(f'\r[{filled:40}] {100 * self.done // self.count} %{end}')
            sys.__stderr__.flush()


def audit(bay, rules: list, bayctl, pause: int | None = None, answer: Answer | None = None,
          is_table_asked: bool = False, diagram: str = '') -> Audit:
    """What bayctl answered on the rules, and what trying shows of those that it does not settle;
    and what it answered on the diagram of this name."""
    offsets = offsets_of(bay.program, rules, pause)
    findings = [Finding(rule, answer and answer.of_line(rule.line), rule.can_apply())
                for rule in rules]
    if answer and not all(it.proof for it in findings):
        missing = next(it.rule.line for it in findings if not it.proof)
        raise Failed(f'bayctl audit says nothing of the rule of line {missing}')
    for finding in findings:
        if finding.proof and finding.proof.verdict == answers.BROKEN:
            finding.shown = replay_case(bay, finding.rule, finding.proof.case, bayctl)
    chosen = chosen_of(bay, findings, answer is None or is_table_asked)
    judged = hazards.with_replays(bay, answer.judged if answer else [], bayctl)
    found = Audit(bay, findings, answer, [], offsets, 0, judged=judged, diagram=diagram)
    if chosen:
        print_size(bay, len(chosen), offsets)
    go_through(found, chosen, bayctl)
    for finding in findings:
        if finding.rule.since and chosen:
            found.scans += judge_times(finding, bay, chosen, bayctl, offsets)
    return found


def chosen_of(bay, findings: list, is_asked: bool) -> list[tuple]:
    """The combinations that are tried: none without rules; all of the usual number; of more some,
    spread over all, if a rule is not settled without, or all where it is asked for."""
    count = bay.count()
    if not findings and not is_asked:
        return []
    if count <= (WHOLE if is_asked else USUAL):
        return list(bay.combinations())
    if not is_asked and all(it.is_settled() for it in findings):
        return []
    chooser = random.Random(1)
    if count <= sys.maxsize:
        places = chooser.sample(range(count), SAMPLED)
    else:  # no range is that long; two equal numbers are then as good as impossible
        places = [chooser.randrange(count) for _ in range(SAMPLED)]
    return [bay.combination_at(place) for place in sorted(places)]


def go_through(found: Audit, chosen: list[tuple], bayctl) -> None:
    """Tries each combination, each reached from the one before it."""
    progress = Progress(len(chosen))
    parts = scenarios(found.bay, chosen, found.offsets, bayctl)
    for part, octets in replay_ahead(bayctl, parts):
        scans = scans_of(bayctl, octets)
        for place, combination in enumerate(part):
            seen = several(scans, len(found.offsets))
            for finding in found.findings:
                judge(finding, found.bay, part, place, found.offsets, seen)
            found.table.append((combination, seen[-1]))
            progress.step()
    found.scans += len(chosen) * len(found.offsets)


def several(scans: Iterator, count: int) -> list:
    """The next scans."""
    seen = list(itertools.islice(scans, count))
    if len(seen) < count:
        raise Failed('bayctl: it printed too few scans')
    return seen


def print_size(bay, chosen: int, offsets: list[int]) -> None:
    """Tells what is tried."""
    switches = sum(thing.kind == SWITCH for thing in bay.things)
    told = f'{quantity(switches, "switch", "switches")}, '
    told += f'{quantity(len(bay.things) - switches, "other")}: '
    told += quantity(bay.count(), 'combination')
    more = '' if chosen == bay.count() else f', of which {chosen:,} are tried'
    print(f'{told}{more}, with {quantity(len(offsets), "scan")} each', file=sys.stderr)


def judge(finding, bay, part: list, place: int, offsets, seen) -> None:
    """Counts the combination at a place, which was reached by those before it, for a rule: `never`
    is to hold at each scan, `always` at the last. Of a rule with a time only what may never be is
    asked here, where its condition does not hold."""
    rule, combination = finding.rule, part[place]
    state, finding.is_tried = bay.state(combination), True
    if not rule.condition(state):
        return
    if rule.since and (rule.wanted or rule.since.condition(state)):
        return
    finding.looked += 1
    asked = list(zip(offsets, seen))[-1:] if rule.wanted else zip(offsets, seen)
    after = next((offset for offset, releases in asked if rule.breaks(releases)), None)
    if after is not None:
        lines = [] if finding.broken else trace_of(bay, part[:place + 1], offsets)
        finding.breaks(combination, after, lines)


def earlier_combinations(bay, rule, combination) -> Iterator[tuple]:
    """The combinations in which a rule's condition does not hold, and that differ from this one
    only in what the rule names."""
    named = rule.names | rule.since.names
    values = [thing.values if thing.key in named else [value]
              for thing, value in zip(bay.things, combination)]
    for before in itertools.product(*values):
        if not rule.since.condition(bay.state(before)):
            yield before


def pairs_of(bay, finding: Finding, chosen: list[tuple]) -> list[tuple]:
    """Each combination in which a rule applies and its condition holds, behind each of those from
    which that can begin; where these are too many, behind those that differ least."""
    rule, found = finding.rule, []
    for combination in chosen:
        state = bay.state(combination)
        if rule.condition(state) and rule.since.condition(state):
            found.append((combination, list(earlier_combinations(bay, rule, combination))))
    total = sum(len(befores) for _, befores in found)
    if total > PAIRS:
        most = max(PAIRS // len(found), 1)
        finding.note = (f'the rule of line {rule.line} was tried from {most} of the up to '
                        f'{max(len(befores) for _, befores in found):,} states before')
        found = [(combination, sorted(befores, key=lambda it: differs(it, combination))[:most])
                 for combination, befores in found]
    return [(before, combination) for combination, befores in found for before in befores]


def differs(one: tuple, other: tuple) -> int:
    """In how many things two combinations differ."""
    return sum(a != b for a, b in zip(one, other))


def judge_times(finding, bay, chosen: list[tuple], bayctl, offsets) -> int:
    """Counts the combinations in which a rule's condition begins to hold; how many scans that
    took."""
    rule, count, last, worst = finding.rule, 0, None, None
    pairs = pairs_of(bay, finding, chosen)
    progress = Progress(len(pairs))
    parts = timed_scenarios(bay, pairs, offsets, bayctl)
    for part, octets in replay_ahead(bayctl, parts):
        scans = scans_of(bayctl, octets)
        for before, combination in part:
            seen = several(scans, len(offsets) + 2)[2:]
            count += len(offsets) + 2
            finding.looked += combination != last
            asked = [(at, releases) for at, releases in zip(offsets, seen)
                     if (at >= rule.since.time) == rule.wanted]
            after = next((at for at, releases in asked if rule.breaks(releases)), None)
            if after is not None and worst != combination:
                worst = combination
                lines = [] if finding.broken else timed_trace_of(
                    bay, [(before, combination)], offsets)
                finding.breaks(combination, after, lines)
            last = combination
            progress.step()
    return count


def shortest(audit: Audit, finding: Finding, bayctl) -> list:
    """The lines of one combination that breaks a rule; where it does so only after others, the
    lines up to it."""
    if finding.shown:
        return finding.shown.lines
    bay, rule = audit.bay, finding.rule
    alone = list(trace_of(bay, [finding.first], audit.offsets))
    again = Finding(rule)
    seen = list(scans_of(bayctl, bay.scenario(alone)))
    judge(again, bay, [finding.first], 0, audit.offsets, seen)
    return alone if again.broken else finding.lines


# ---- conditions of releases

def variables_of(bay) -> list:
    return [Variable(thing.name, tuple(thing.words()), thing.is_truth()) for thing in bay.things]


def tried_conditions(bay, table: list, holds) -> dict:
    """The least condition of something in a table of all combinations, by each switch and way: of
    `holds` of the switch's name, the way, the state and what is released. None where it is too
    large."""
    found, progress = {}, Progress(len(bay.switches()) * len(WAYS))
    for name in bay.switches():
        for way in range(len(WAYS)):
            truths = ''.join('1' if holds(upcase(name), way, combination, releases) else '0'
                             for combination, releases in table)
            try:
                found[name, way] = condition(variables_of(bay), truths)
            except TooLarge:
                found[name, way] = None
            progress.step()
    return found


def release_conditions(audit: Audit) -> dict:
    """The least condition of each release: by the cases that bayctl proves, or by what was tried;
    none where that was not whole, or is too much."""
    if 'released' not in audit.kept:
        audit.kept['released'] = found_released(audit)
    return audit.kept['released']


def found_released(audit: Audit) -> dict:
    if audit.answer:
        return conditions(audit.answer, audit.bay.file)
    if not is_derived(audit):
        return {(name, way): None for name in audit.bay.switches() for way in range(len(WAYS))}
    return tried_conditions(audit.bay, audit.table, lambda name, way, _, seen: seen[name][way])


def is_derived(audit: Audit) -> bool:
    """Whether conditions can be derived of what was tried."""
    return audit.is_whole() and len(audit.table) <= DERIVED


def uncovered_release(audit: Audit) -> dict | None:
    """The least condition under which something is released that no rule asks for, by each switch
    and way: by the cases that bayctl proves, or by what was tried, with how often. None where
    nothing is proved and not all was tried."""
    if 'uncovered' not in audit.kept:
        audit.kept['uncovered'] = (
            proved_uncovered(audit) if audit.answer else
            found_uncovered(audit) if is_derived(audit) else None)
    return audit.kept['uncovered']


def proved_uncovered(audit: Audit) -> dict:
    found = conditions(audit.answer, audit.bay.file,
                       [it.rule for it in audit.findings if it.rule.wanted])
    return {key: (None, it) for key, it in found.items() if it is None or not it.is_never()}


def found_uncovered(audit: Audit) -> dict:
    rules, counts = [it.rule for it in audit.findings if it.rule.wanted], {}

    def is_bare(name, way, combination, seen) -> bool:
        state = audit.bay.state(combination)
        is_so = seen[name][way] and not any(
            rule.switch == name and way in rule.ways and rule.applies(state) for rule in rules)
        counts[name, way] = counts.get((name, way), 0) + is_so
        return is_so

    found = tried_conditions(audit.bay, audit.table, is_bare)
    return {key: (counts[upcase(key[0]), key[1]], it) for key, it in found.items()
            if counts[upcase(key[0]), key[1]]}
