"""Public clauses that belong to no promise: those of calls on the way from a promise are inner, and
each other is judged here."""
import collections
import functools
import re

from baytools.common.paths import TOP

from .calls import Call, Clause, all_calls, crates
from .promises import Promise, borne_by, promises

STANDS_ON = re.compile(r'^(\w+)(?: staticlib)?:(.*)$', re.M)
JUDGED = {
    'bay_stdio Descriptor::new': 'the program calls it; what the system takes of a descriptor is '
                                  'tested',
    'bay_stdio Descriptor::stop_waiting': 'the program calls it, where nobody reads any more; '
                                           'what the system then does is tested',
    'bay_tree is_tree': 'cases ask it of rows; of a bay it is proved'}


@functools.cache
def crates_below(crate: str) -> set[str]:
    """A crate and those that crates.txt names for it."""
    listed = dict(STANDS_ON.findall((TOP / 'crates.txt').read_text(encoding='utf-8')))
    return {crate, *listed.get(crate, '').split()}


@functools.cache
def all_below(crate: str) -> tuple[str, ...]:
    """The crates of the repository that a crate stands on, each behind those that it stands on."""
    found: dict[str, None] = {}
    for it in (name for name in crates() if name in crates_below(crate) - {crate}):
        found.update(dict.fromkeys((*all_below(it), it)))
    return tuple(found)


def is_called(call: Call, body: str) -> bool:
    """Whether a body calls a function, by its name and its owner's."""
    if not call.owner:
        return bool(re.search(rf'\b{call.name}\b', body))
    return bool(re.search(rf'\.{call.name}\b|\b(?:{call.owner}|Self)(?:::<[^()]*>)?::{call.name}\b',
                          body))


@functools.cache
def by_name() -> dict[str, list[Call]]:
    """All functions by their names."""
    found = collections.defaultdict(list)
    for it in all_calls():
        found[it.name].append(it)
    return found


@functools.cache
def inner_calls() -> dict[Call, Promise]:
    """The functions that the calls of promises lead to, with the first promise that does."""
    found = {call: it for it in promises() if it.id for call in reversed(borne_by(it).calls)}
    left = list(found)
    for caller in left:
        for name in set(re.findall(r'\w+', caller.body)) & set(by_name()):
            for it in by_name()[name]:
                if it not in found and it.crate in crates_below(caller.crate) and is_called(
                        it, caller.body):
                    found[it] = found[caller]
                    left.append(it)
    return found


@functools.cache
def orphans() -> list[tuple[Call, Clause]]:
    """The public clauses that no promise names."""
    borne = {(call, clause) for it in promises() if it.id
             for call in borne_by(it).calls for clause in borne_by(it).clauses(call)}
    return [(call, clause) for call in all_calls() if call.is_public for clause in call.clauses
            if clause.kind.startswith('ensures') and (call, clause) not in borne]


def reason_of_none(call: Call) -> str:
    """Why a call that no promise leads to belongs to none, or an empty text."""
    return JUDGED.get(f'{call.crate} {call.title}', '')
