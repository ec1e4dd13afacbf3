"""Inputs that block while they are TRUE. If its wire is broken or its module is lost, an input
reads FALSE, and such a one then blocks nothing."""
from dataclasses import dataclass

from baytools.bay.conditions import TooLarge
from baytools.bay.cubes import condition_of
from baytools.bay.rules import INPUT
from baytools.common.texts import upcase

from . import questions
from .answers import WAYS, Answer, Release
from .proofs import cube_of, variable_of
from .variables import all_things, keys_of

FAILS = ('_FAIL', '_FAILED', '_FAULT')  # ends of names that are TRUE while something is wrong


def good_name(name: str) -> str:
    """What an input is called that is TRUE where this one is FALSE."""
    found = next((end for end in FAILS if upcase(name).endswith(end)), '')
    return f'{name[:-len(found)]}_OK' if found else f'NO_{name}'


@dataclass(frozen=True)
class Needed:
    """An input with the releases for which some state needs it FALSE, and those for which some
    state needs it TRUE, as `QA1 close`."""
    name: str
    false: tuple[str, ...]
    true: tuple[str, ...]

    def warning(self) -> str:
        """What is to be warned of where it blocks while it is TRUE, with the remedy, or nothing."""
        if not self.false:
            return ''
        return (f'{self.name} blocks {", ".join(self.false)} while it is TRUE. If its wire is '
                'broken or its module is lost it reads FALSE, and blocks nothing. Wire it '
                'inverted, by a contact that is closed while it is not to block, and name it '
                f'{good_name(self.name)}.')


def needed_by(release: Release, file: dict) -> set[tuple[str, str]]:
    """The inputs that some state of a release needs, with the value that it needs, `0` or `1`: if
    such a one gets the other value, and nothing else changes, the release is gone, whatever the
    program keeps."""
    named = {key for case in release.cases for key in case.values}
    things = [thing for thing in all_things(file) if thing.key in named]
    variables = [variable_of(thing, release.cases, []) for thing in things]
    cubes = [cube_of(case, things, variables) for case in release.cases]
    return {(variable.name, words[0]) for product in condition_of(variables, cubes).facts
            for variable, words in product if variable.is_truth}


def needs_of_inputs(answer: Answer, file: dict) -> list[Needed]:
    """What the releases need of each input, in the order of the bay file. A release with too many
    cases is left out."""
    found: dict[tuple[str, str], list[str]] = {}
    names = {upcase(switch['id']): switch['id'] for switch in file['switch']}
    for release in answer.releases:
        try:
            inputs = needed_by(release, file) if release.is_known else set()
        except TooLarge:
            continue
        for key in inputs:
            found.setdefault(key, []).append(f'{names[release.name]} {WAYS[release.way]}')
    return [Needed(thing.name, *(tuple(found.get((thing.name, value), ())) for value in '01'))
            for thing in all_things(file) if thing.kind == INPUT]


def needed_of(bayctl, bay, logic, file: dict) -> list[Needed] | None:
    """That of a bay file and a program; None where bayctl proves nothing."""
    answer = questions.releases_of(bayctl, bay, logic, keys_of(file))
    return None if answer is None else needs_of_inputs(answer, file)


def warnings(answer: Answer | None, file: dict) -> list[str]:
    """What is to be warned of, where something is proved."""
    return [it.warning() for it in needs_of_inputs(answer, file) if it.false] if answer else []
