"""The positions of a switch and the ways to operate it, by the one word that each has in all tools.
What bayctl prints of a command, and rules that were written earlier, say off and on."""

POSITIONS = ('intermediate', 'open', 'closed', 'bad')  # by their numbers in a trace
OF_BITS = {'00': 'intermediate', '01': 'open', '10': 'closed', '11': 'bad'}  # as MMS has them
OLDER = {'off': 'open', 'on': 'closed'}
WAYS = {'off': 'open', 'on': 'close'}  # what a command of bayctl does


def way_of(on: bool) -> str:
    """What an operate does whose value is TRUE or FALSE."""
    return WAYS['on' if on else 'off']
