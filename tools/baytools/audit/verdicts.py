"""What is said of an audit: of each rule, and of all; what is proved, and what was only tried."""
from baytools.bay.rules import MEASURE
from baytools.common.ending import DONE, FOUND, PARTLY
from baytools.common.texts import quantity, upcase

from . import answers, hazards, proofs
from .rule_findings import Audit, Finding
from .variables import all_things

DOUBTED = ('the replay does not agree with what bayctl proves: rely on neither, and report it')
DONE_WAYS = ('opened', 'closed')
# What is said of several rules among others, of one rule, and of all.
SENTENCES = {'PROVED': ('proved', 'is proved', 'are proved'),
             'BROKEN': ('broken', 'is broken', 'are broken'),
             'OPEN': ('open', 'is open', 'are open'),
             'TRIED': ('tried without a break', 'holds in what was tried',
                       'hold in what was tried'),
             'never applies': ('never applied', 'never applied', 'never applied')}


def restrictions(audit: Audit) -> list[str]:
    """What was tried with fewer values than there are, since someone said so: of a measure nobody
    can try all."""
    return [f'{it.name} only {"|".join(it.words())}' for it in audit.bay.things
            if it.is_told and (it.kind == MEASURE or it.is_restricted())]


def lost_warnings(audit: Audit) -> list[str]:
    """What may be done while nothing is known of the switchgear, but for opening a breaker."""
    switches = {upcase(it['id']): it for it in audit.bay.file['switch']}
    return [f'{switches[it.name]["id"]} may be {DONE_WAYS[it.way]} while the process is lost: each '
            'position is bad and each input 0'
            for it in (audit.answer.lost if audit.answer else [])
            if it.state == answers.RELEASED and not (
                switches[it.name]['kind'] == 'breaker' and answers.WAYS[it.way] == 'open')]


def forgotten(audit: Audit, name: str, way: int) -> list[str]:
    """What a release depends on that the program keeps from scan to scan, and a restart forgets."""
    reported = {name for _, name in (thing.key for thing in all_things(audit.bay.file))}
    return sorted({kept for it in audit.answer.releases if (it.name, it.way) == (name, way)
                   for case in it.cases for kept in case.kept
                   if kept != answers.COMPUTED and upcase(kept) not in reported})


def start_warnings(audit: Audit) -> list[str]:
    """Which switches may be closed right after a restart, whatever was before: by the first scan
    whatever the process reports, or although the release depends on what the restart forgets."""
    found = []
    ids = {upcase(it['id']): it['id'] for it in audit.bay.file['switch']}
    for it in (audit.answer.start if audit.answer else []):
        if answers.WAYS[it.way] != 'close' or it.state == answers.BLOCKED:
            continue
        kept = forgotten(audit, it.name, it.way)
        if it.state == answers.RELEASED:
            found.append(f'{ids[it.name]} may be closed right after a restart, whatever the '
                         'process reports')
        elif kept:
            found.append(f'{ids[it.name]} may be closed right after a restart, which forgets '
                         f'{", ".join(kept)}')
    return found


def ways_text(rule, words: tuple, joint: str) -> str:
    return f' {joint} '.join(words[way] for way in sorted(set(rule.ways)))


def tail_of(rule) -> str:
    """The condition of a rule, as it is written."""
    parts = rule.text.split(' ')
    at = next((at for at, word in enumerate(parts)
               if word.lower() in ('until', 'after', 'when')), None)
    return '' if at is None else ' ' + ' '.join(parts[at:])


def meaning(rule) -> str:
    """What a rule that is proved says of the switchgear."""
    if rule.wanted:
        return f'{rule.switch} may always be {ways_text(rule, DONE_WAYS, "and")}{tail_of(rule)}'
    return f'no command to {ways_text(rule, ("open", "close"), "or")} {rule.switch}{tail_of(rule)}'


def undecided_text(audit: Audit, finding: Finding) -> str:
    """Why a rule is neither proved nor broken."""
    if finding.proof.verdict == answers.MANY:
        return 'there are too many cases to prove it'
    case = finding.proof.case
    where = proofs.case_text(case, list(all_things(audit.bay.file)))
    kept = ' or '.join(case.kept) or 'what the program keeps'
    return f'holds, unless {kept} breaks it with {where}'


def tried_text(audit: Audit, finding: Finding) -> str:
    """What the trial shows of a rule."""
    if not finding.is_tried:
        return 'not tried'
    if finding.broken:
        return f'tried: broken in {finding.broken:,} of {quantity(finding.looked, "combination")}'
    more = '' if audit.is_whole() else f' of {audit.bay.count():,}'
    told = f'tried in {quantity(finding.looked, "combination")}{more}, no break found'
    return told if finding.looked else 'tried, and never applies'


def lines_of(audit: Audit, finding: Finding) -> list[str]:
    """The lines on a rule: the first has its verdict, the others explain it."""
    rule, verdict = finding.rule, finding.verdict()
    if verdict == 'PROVED':
        by = f' (by timer {finding.proof.timer})' if finding.proof.timer else ''
        return [f'PROVED: {meaning(rule)}{by}']
    if verdict == 'OPEN':
        return [f'OPEN: {rule.text}',
                f'{undecided_text(audit, finding)}; {tried_text(audit, finding)}']
    if verdict == 'BROKEN':
        return [f'BROKEN: {rule.text}', *broken_lines(audit, finding)]
    if verdict == 'TRIED':
        return [f'TRIED: {rule.text}', f'not proved; {tried_text(audit, finding)}']
    how = 'proved' if finding.is_settled() else 'tried'
    return [f'never applies ({how}): {rule.text}']


def broken_lines(audit: Audit, finding: Finding) -> list[str]:
    found = []
    if finding.shown:
        where = proofs.case_text(finding.proof.case, list(all_things(audit.bay.file)))
        is_run = finding.rule.since and not finding.rule.wanted
        how = "a run from the program's start" if is_run else (
            'every state that the program can reach')
        found.append(f'proved: broken in {how}, with {where}')
    if finding.broken:
        after = f', {finding.after:,} ms after' if finding.after else ''
        found.append(f'{tried_text(audit, finding)}, first by '
                     f'{audit.bay.combination_text(finding.first)}{after}')
    return found + ([DOUBTED] if finding.is_doubted() else [])


def unfinished_parts(audit: Audit) -> list[str]:
    """What was neither proved nor tried whole, in words."""
    tried = [it for it in audit.findings if not it.is_settled()]
    if not tried:
        return []
    found = [f'{it.name} was tried only {"|".join(it.words())}' for it in audit.bay.restricted()]
    found += [it.note for it in tried if it.note]
    if not audit.is_whole():
        found.append(f'{len(audit.table):,} of {quantity(audit.bay.count(), "combination")} '
                     'were tried')
    return found + [f'the end of {name} was not tried: its time is not a number of the text'
                    for name in audit.bay.program.untold]


def status(audit: Audit) -> int:
    """The exit status: a rule or a release is broken, or not all was proved or tried, or all
    holds."""
    verdicts = [it.verdict() for it in (*audit.findings, *audit.judged)]
    if 'BROKEN' in verdicts:
        return FOUND
    is_whole = verdicts and set(verdicts) <= {'PROVED', 'TRIED'} and not is_unjudged(audit)
    return DONE if is_whole and not unfinished_parts(audit) else PARTLY


def is_unjudged(audit: Audit) -> bool:
    """Whether bayctl was asked for hazards in a diagram, and did not answer."""
    return bool(audit.diagram) and not audit.judged


def counts_text(audit: Audit) -> str:
    """How many rules are proved, broken, open, tried and idle."""
    verdicts = [it.verdict() for it in audit.findings]
    if not verdicts:
        return judged_text(audit)
    return '; '.join(filter(None, (rules_text(verdicts), judged_text(audit))))


def judged_text(audit: Audit) -> str:
    """What was found of the hazards in a diagram, if one was asked for."""
    if is_unjudged(audit):
        return f'{audit.diagram} is not judged'
    return hazards.counts_text(audit.judged, audit.diagram) if audit.diagram else ''


def rules_text(verdicts: list[str]) -> str:
    """How many rules have each verdict."""
    kinds = [(verdicts.count(kind), kind) for kind in SENTENCES if kind in verdicts]
    if len(kinds) > 1:
        return f'of {quantity(len(verdicts), "rule")} ' + ', '.join(
            f'{count} {SENTENCES[kind][0]}' for count, kind in kinds)
    (count, kind), = kinds
    _, one, several = SENTENCES[kind]
    return f'the rule {one}' if count == 1 else f'all {count} rules {several}'


def how_text(audit: Audit, tried: list) -> str:
    """Whether a pass is proved."""
    if not tried:
        return ''
    is_all = len(tried) == len(audit.findings) and not audit.judged
    return ' (TRIED, NOT PROVED)' if is_all else ' (NOT ALL PROVED)'


def verdict(audit: Audit) -> str:
    """The result in a sentence. Under a restriction of what is tried it never reads PASSED."""
    if not audit.findings and not audit.diagram:
        return 'NOTHING AUDITED: there are no rules.'
    found, told = status(audit), counts_text(audit)
    if found == FOUND:
        return f'NOT PASSED: {told}.'
    limits = restrictions(audit)
    tried = [it for it in audit.findings if it.verdict() == 'TRIED']
    if found == DONE and not limits:
        return f'PASSED{how_text(audit, tried)}: {told}.'
    if found == DONE and not tried:
        return f'PROVED: {told}; the restriction bears on nothing that is proved.'
    if found == DONE:
        return f'TRIED UNDER A RESTRICTION: {told}; tried with {", ".join(limits)}.'
    return f'NOT ALL WAS PROVED OR TRIED: {"; ".join([told, *unfinished_parts(audit)])}.'
