"""Whether a program is one of a bay file's bay, by the points that it names. A server does not say
which program it runs."""
from baytools.common.ending import FOUND, Failed
from baytools.diagnosis import bay_file, lines, program

NAMES = (70, 72)  # a name that is no point of the bay, a point of another type


class OtherProgram(Failed):
    """A program that is not one of the bay file's bay."""
    status = FOUND


def check_program(logic: str, text: str, bay: bytes) -> None:
    """Ends the tool where the program in the file `logic`, of this text, names what is no point of
    the bay file `bay`."""
    found = misfits(text, bay)
    if found:
        more = f', and {len(found) - 1} more' if len(found) > 1 else ''
        raise OtherProgram(f'--logic {logic}: it is no program of this bay file: line '
                           f'{found[0].line}: {found[0].told}{more}; give the program that the '
                           'server was started with')


def misfits(text: str, bay: bytes) -> list[program.Fault]:
    """The names of a program that are no points of a bay, or of another type there; nothing where
    its text can't be followed, which bayctl refuses."""
    try:
        found = program.faults_of(text, bay_file.bay_points(bay))
    except lines.Misplaced:
        return []
    return [it for it in found if it.code in NAMES and it.token is not None
            and it.told.startswith(('the bay has no point', 'the point '))]
