"""What only a served bay can show of a restart: what the examples with a latch release right after
it, in each state of the latch. Each check has the name of the wrong behaviour that it refuses."""
import contextlib
import re
import time
from collections.abc import Iterator

from baytools.common.paths import TOP
from devtools.served import Server, Simulator, until

LOCKED, TRIPPED = TOP / 'examples' / '03_single_busbar', TOP / 'examples' / '04_delayed_release'
# Positions and inputs with which QA1 may be closed, but for the latch of the program.
READY = {LOCKED: ('--at', 'QB1=closed', '--at', 'QB9=closed', '--set', 'SPRING=1', '--set',
                  'NO_TRIP=1'),
         TRIPPED: ('--set', 'NO_TRIP=1', '--set', 'VT_OK=1')}
OPEN, BOTH = '10', '11'  # the releases of QA1: opening alone, opening and closing
DELAY = 4  # seconds, more than the 3 s for which one trip blocks


@contextlib.contextmanager
def served_example(checks, example) -> Iterator[Simulator]:
    """A server of an example, which tells releases, with its switchgear."""
    bay = example / 'bay.toml'
    with (Server(checks.bayctl, bay, example / 'logic.il', '--tell', 'releases',
                 with_process=True) as server, Simulator(bay, server, *READY[example]) as gear):
        yield gear


def last_releases(gear: Simulator) -> str:
    """The releases of QA1 that were told last; nothing before the first."""
    return ([''] + re.findall(r'^< QA1=(\d\d)$', gear.printed(), re.M))[-1]


def becomes(checks, name: str, gear: Simulator, wanted: str) -> None:
    """Waits until these are the releases of QA1."""
    try:
        until(lambda: last_releases(gear) == wanted, name)
        checks.holds(name, True, '')
    except TimeoutError:
        checks.holds(name, False, gear.printed())


def latches(checks) -> None:
    """The lockout of the single busbar begins set: a restart releases no closing, whatever its
    state was. The count of trips begins at 0: a restart forgets it, as the example's page says."""
    with served_example(checks, LOCKED) as gear:
        becomes(checks, 'a lockout does not begin set', gear, OPEN)
        gear.type('RESET 1')
        becomes(checks, 'a reset does not end a lockout', gear, BOTH)
    with served_example(checks, LOCKED) as gear:
        becomes(checks, 'a restart after a reset releases the closing', gear, OPEN)
        gear.type('RESET 1')
        becomes(checks, 'a reset after a restart does not end a lockout', gear, BOTH)
        gear.type('RESET 0')
        gear.type('NO_TRIP 0')
        becomes(checks, 'a trip does not lock', gear, OPEN)
        gear.type('NO_TRIP 1')
    with served_example(checks, LOCKED) as gear:
        becomes(checks, 'a restart after a trip releases the closing', gear, OPEN)

    with served_example(checks, TRIPPED) as gear:
        becomes(checks, 'a program without trips blocks', gear, BOTH)
        for _ in range(2):
            gear.type('NO_TRIP 0')
            becomes(checks, 'a trip does not block', gear, OPEN)
            gear.type('NO_TRIP 1')
            becomes(checks, 'a trip blocks for ever', gear, BOTH)
        gear.type('NO_TRIP 0')
        becomes(checks, 'a third trip does not block', gear, OPEN)
        gear.type('NO_TRIP 1')
        time.sleep(DELAY)
        checks.holds('a third trip blocks no longer than one', last_releases(gear) == OPEN,
                     gear.printed())
    with served_example(checks, TRIPPED) as gear:
        becomes(checks, 'a restart remembers trips', gear, BOTH)


PARTS = (latches,)
