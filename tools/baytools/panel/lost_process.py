"""What positions say of the process that should tell them: a lost process is as a bad contact of
each switch."""
from collections.abc import Sequence

from baytools.wire.words import PROCESS_LOST

REFUSED = 'the process is lost, so every operate is refused'


def is_process_lost(switches: Sequence[dict], measures: Sequence[dict] = ()) -> bool:
    """Whether every position is bad and no measured value good. Of a single bad contact, without
    anything else to go by, nobody knows."""
    return (len(switches) + len(measures) > 1
            and all(it['position'] == 'bad' for it in switches)
            and not any(it['quality'] == 'good' for it in measures))


def process_text(switches: Sequence[dict], measures: Sequence[dict] = ()) -> str:
    """What positions say of the process, or nothing."""
    if is_process_lost(switches, measures):
        last = max(switches, key=lambda it: it.get('moment', 0))
        return PROCESS_LOST + (f', since {last["time"]}' if last.get('time') else '')
    if switches and all(it['quality'] != 'good' for it in switches):
        if all(it['position'] == 'bad' for it in switches):
            return 'every position is bad'
        return 'no position is known yet'
    return ''
