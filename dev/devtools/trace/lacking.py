"""Why a promise has no law or no edit: by the first call that bears it, or a label of that."""
from .promises import Borne, Promise, borne_by

OWN_WORDS = 'its clause says it in the words of its subject: '
NO_LAW = {
    '': 'no clause says it: it is what a proof of a function is',
    'bay_audit_hazards judge': OWN_WORDS + 'each scan from each process in which the operation is '
                               'a hazard, in each state',
    'bay_base same_name': OWN_WORDS + 'a table of words, and letters that differ in case',
    'bay_ber BerFault::code': OWN_WORDS + 'a number for each fault',
    'bay_config read_bay': '`sound` is the law of what `read` gives: a bay whose names differ and '
                           'whose rows make a tree',
    'bay_diagram_file read_diagram': OWN_WORDS + 'the tables of a file, and what each of them and '
                                     'all together must be',
    'bay_device load': '`accepted` and `refused` say of the texts themselves what `device` comes '
                       'to: a bay file that is read, and a program right by its grammar and types',
    'bay_device Device::step': '`operates`, `fresh`, `means`, `halts` and `leads` say what the '
                               'outcome comes to by events, answers and what programs mean',
    'bay_device Device::switch': OWN_WORDS + 'the place of an id, and the id at a place',
    'bay_files write_atomically': OWN_WORDS + 'tries in their order, up to the first that does '
                                  'not find its name taken',
    'bay_io WatchedReader::new': OWN_WORDS + 'the calls on the source or sink, in their order',
    'bay_io WatchedWriter::put': OWN_WORDS + 'the calls on the sink, in their order',
    'bay_io WatchedWriter::log': OWN_WORDS + 'one call of the sink with the line, or none',
    'bay_io read_all': OWN_WORDS + 'what the reads gave, in order, up to an end',
    'bay_main CommandResult::of': OWN_WORDS + 'a status for each answer',
    'bay_stdio Output::new': OWN_WORDS + 'what each call leaves written, and what waits',
    'cmd_replay replay_reader': OWN_WORDS + 'what the reads gave, and what the writes took',
    'bay_report write_report': OWN_WORDS + 'the texts of a load and of an answer, part by part',
    'bay_report report_unread': OWN_WORDS + 'the words of the line, and what is printed',
    'bay_server_turn serve_turn': 'it speaks of refusals alone; what a turn does has its laws '
                                  'in bay_server_turn_laws',
    'bay_cli task_of': OWN_WORDS + 'a job for each command line',
    'cmd_audit audit_files': OWN_WORDS + 'the answer to each release, and its line, in their order',
    'cmd_audit judge_diagram': OWN_WORDS + 'the answer to each release, and whether all of them '
                               'hold',
    'il_compile compile': '`follows` is the law of `image` and `tabled`: the code does what the '
                          'program means by its structure; il_standard_laws adds the '
                          'standard\'s tables',
    'il_image decode': OWN_WORDS + 'the octets that stand before a lack of memory',
    'il_scan Machine::new': OWN_WORDS + 'the first state of the image',
    'il_scan Machine::scan': 'its definition is the machine\'s, step by step; that it never goes '
                             'wrong is `verified_code_never_goes_wrong`',
    'il_verify Verified::image': OWN_WORDS + 'paths through the code and tables that agree with '
                                 'it, where the code goes over it once',
    'il_verify verify': OWN_WORDS + 'the image that stands before a lack of memory'}

DEFINITIONS = 'it is about definitions alone: `dev/wrong_definitions` changes these'
CHANGED = 'it is about definitions alone: those that were changed stand in place of wrong bodies'
NO_EDIT = {
    'bay_device_example_laws a_select_backs_its_own_operate': CHANGED,
    'bay_audit_rules conditions_have_truths': CHANGED,
    'cmd_audit_laws the_last_scan_releases_a_command': DEFINITIONS,
    'il_compile programs_have_a_meaning': CHANGED,
    'il_image offsets_are_of_instructions': CHANGED}


def key_of(borne: Borne) -> str:
    """The first call that bears a promise, with its crate."""
    first = next(iter(borne.calls), None)
    return f'{first.crate} {first.title}' if first else ''


def key_in(reasons: dict[str, str], borne: Borne) -> str:
    """Under which key a reason of a promise stands: by a label of its first call, or by that."""
    key, labels = key_of(borne), next(iter(borne.calls.values()), set())
    return next((it for label in sorted(labels) if (it := f'{key}: {label}') in reasons), key)


def reason(reasons: dict[str, str], promise: Promise) -> str:
    """Why a promise lacks something, or an empty text."""
    return reasons.get(key_in(reasons, borne_by(promise)), '')


def no_edit(promise: Promise) -> str:
    """Why a promise has no wrong body, or an empty text."""
    return reason(NO_EDIT, promise) if promise.id else 'the rows that it sums up have them'
