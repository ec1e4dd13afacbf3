"""The acceptance test of an example: at a replay and at the served bay it passes, and at a bay with
another program it fails."""

from baytools.common.paths import TOP
from devtools.served import Server

EXAMPLE = TOP / 'examples' / '05_double_busbar'
STEPS, BAY, LOGIC = (EXAMPLE / name for name in ('acceptance', 'bay.toml', 'logic.il'))
PASSED = 'PASSED: 51 steps, 21 expectations, all passed'


def acceptance(checks) -> None:
    """At a replay, whose scenario is told by tools/explain, and with another program."""
    scenario, page = checks.folder / 'accepted.scenario', checks.folder / 'accepted.html'
    words = [STEPS, '--bay', BAY, '--bayctl', checks.bayctl, '--logic']
    found, status = checks.run('acceptance', *words, LOGIC, '--scenario', scenario, '--html',
                               page)
    checks.wants('an acceptance test', found + page.read_text(), status,
                 [PASSED, 'Signatures', 'refused: blocked by process (9)',
                  'refused: blocked by switching hierarchy (2)'], 0)
    checks.wants('its scenario', *checks.run('explain', scenario, '--bayctl', checks.bayctl),
                 ['command: close QB1', 'operate QA1 close has ended: done'], 0)
    changed = checks.file('changed.il', LOGIC.read_text().replace('AND QC1_OPEN', 'ANDN BYPASS'))
    checks.wants('an acceptance test of another program',
                 *checks.run('acceptance', *words, changed),
                 ['expect blocked QB1 close: FAILED: released', 'FAILED: 51 steps'], 1)
    without_keys(checks)


def without_keys(checks) -> None:
    """At a replay of the same bay with an input in the place of its key."""
    bay = checks.file('keyless.toml', BAY.read_text().replace('remote = "REMOTE"', ''))
    steps = STEPS.read_text()
    for where, value in (('local', 0), ('remote', 1)):
        steps = steps.replace(f'do key QA1 {where}', f'do input REMOTE {value}')
    checks.wants('an acceptance test of a bay without its keys', *checks.run(
        'acceptance', checks.file('keyless', steps), '--bay', bay, '--bayctl', checks.bayctl,
        '--logic', LOGIC),
        ['expect refused: FAILED: accepted', 'expect refused 2: FAILED: refused'], 1)


def served_acceptance(checks) -> None:
    """At the served bay, supervised and not."""
    for more in ((), ('--supervise', 500)):
        with Server(checks.bayctl, BAY, LOGIC, *more, with_process=True) as server:
            server.client().close()
            words = [STEPS, '--bay', BAY, '--port', str(server.port), '--process',
                     str(server.process)]
            checks.wants('an acceptance test at a served bay', *checks.run('acceptance', *words),
                         [PASSED], 0)


PARTS = (acceptance, served_acceptance)
