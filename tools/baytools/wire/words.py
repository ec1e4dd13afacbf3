"""What stands in MMS, in the words of those who switch: positions, qualities, causes, errors, names
of a bay."""
import struct

from baytools.common import moments, positions

from . import mms
from .mms import Data, Failure

ADD_CAUSES = {
    0: 'unknown', 1: 'not supported', 2: 'blocked by switching hierarchy', 3: 'select failed',
    4: 'invalid position', 5: 'position reached',
    6: 'parameter change in execution', 7: 'step limit', 8: 'blocked by mode',
    9: 'blocked by process', 10: 'blocked by interlocking',
    11: 'blocked by synchrocheck', 12: 'command already in execution', 13: 'blocked by health',
    14: '1 of n control', 15: 'abortion by cancel',
    16: 'time limit over', 17: 'abortion by trip', 18: 'object not selected',
    19: 'object already selected', 20: 'no access authority',
    21: 'ended with overshoot', 22: 'abortion due to deviation',
    23: 'abortion by communication loss', 24: 'blocked by command',
    25: 'none', 26: 'inconsistent parameters', 27: 'locked by other client'}
# The one thing that a cause comes of in bayctl.
HERE = {2: 'its key is not at remote', 9: 'the process is lost',
        11: 'the switch has no synchrocheck'}
PROCESS_LOST = 'every position is bad: the process is lost'
ACCESS_ERRORS = {0: 'object invalidated', 1: 'hardware fault', 2: 'temporarily unavailable',
                 3: 'object access denied', 4: 'object undefined',
                 5: 'invalid address', 6: 'type unsupported', 7: 'type inconsistent',
                 8: 'object attribute inconsistent',
                 9: 'object access unsupported', 10: 'object non-existent',
                 11: 'object value invalid'}
ERROR_CLASSES = {0: 'vmd state', 1: 'application reference', 2: 'definition', 3: 'resource',
                 4: 'service', 5: 'service preempt',
                 6: 'time resolution', 7: 'access', 8: 'initiate', 9: 'conclude', 10: 'cancel',
                 11: 'file', 12: 'others'}
ERRORS = {(3, 0): 'too much is asked, or the answer is longer than the PDU size',
          (7, 2): 'there is no such object'}
REJECTS = {(1, 1): 'unrecognized service', (5, 1): 'invalid PDU'}
ORIGINATORS = ['not supported', 'bay control', 'station control', 'remote control', 'automatic bay',
               'automatic station', 'automatic remote',
               'maintenance', 'process']
POSITIONS = positions.OF_BITS
VALIDITIES = {'00': 'good', '01': 'invalid', '10': 'reserved', '11': 'questionable'}
CONTROL_MODELS = {0: 'status only', 1: 'direct', 2: 'select before operate', 3: 'direct, enhanced',
                  4: 'select before operate, enhanced'}
CHECKS = {'00': 'none', '10': 'synchrocheck', '01': 'interlocking',
          '11': 'synchrocheck and interlocking'}
HEALTH = {1: 'ok', 2: 'warning', 3: 'alarm'}
STATES = {'Mod': {1: 'on'}, 'Beh': {1: 'on'}, 'Health': HEALTH, 'PhyHealth': HEALTH,
          'SwTyp': {2: 'disconnector', 3: 'earthing switch'}, 'CBOpCap': {2: 'open'},
          'SwOpCap': {2: 'open'}}
UNITS = {5: 'A', 33: 'Hz', 62: 'W', 63: 'VAr'}  # numbers of SIUnit (IEC 61850-7-3)

# The names below each name, down to leaves: None, or the tag that a leaf has.
VALUE = dict.fromkeys(('stVal', 'q', 't'))
MEASURED = {'mag': {'i': None}, 'q': None, 't': None}
CURRENT = {'cVal': {'mag': {'i': None}}, 'q': None, 't': None}
SWITCH = {'ST': dict.fromkeys(('Pos', 'BlkOpn', 'BlkCls', 'OpCnt'), VALUE),
          'CF': {'Pos': {'ctlModel': None}}}
ORIGIN = {'orCat': mms.INTEGER, 'orIdent': mms.OCTETS}
CANCEL = {'ctlVal': mms.BOOLEAN, 'origin': ORIGIN, 'ctlNum': mms.UNSIGNED, 'T': mms.TIME,
          'Test': mms.BOOLEAN}
OPER = CANCEL | {'Check': mms.BITS}
LAST_APPL_ERROR = {'CntrlObj': mms.TEXT, 'Error': mms.INTEGER, 'Origin': ORIGIN,
                   'ctlNum': mms.UNSIGNED, 'AddCause': mms.INTEGER}
DEVICE = {'ST': dict.fromkeys(('Mod', 'Beh', 'Health'), VALUE),
          'CF': {'Mod': {'ctlModel': None}},
          'DC': {'NamPlt': dict.fromkeys(('vendor', 'swRev', 'd'))}}
INTERLOCKING = {'ST': dict.fromkeys(('EnaOpn', 'EnaCls'), VALUE)}
METER = {'MX': dict.fromkeys(('TotW', 'TotVAr', 'Hz'), MEASURED)
         | {'A': dict.fromkeys(('phsA', 'phsB', 'phsC'), CURRENT)}}
POSITION = {'ST': {'Pos': VALUE | {'stSeld': None}}}
SETTINGS = {'CF': {'Pos': dict.fromkeys(('ctlModel', 'sboTimeout'))}}
CONTROLS = {'status': {}, 'direct': {'Oper': OPER},
            'sbo': {'SBO': None, 'Oper': OPER, 'Cancel': CANCEL},
            'sbo-enhanced': {'SBOw': OPER, 'Oper': OPER, 'Cancel': CANCEL}}

# What profile 2 adds, in the order of IEC 61850-7-4.
BEHAVIOUR = {'Beh': VALUE}
PLATE = {'DC': {'NamPlt': dict.fromkeys(('vendor', 'swRev', 'd'))}}
MAGNITUDE = {'mag': dict.fromkeys(('i', 'f'))}
SCALED_METER = {'MX': dict.fromkeys(('TotW', 'TotVAr', 'Hz'), MEASURED | MAGNITUDE) | {
    'A': dict.fromkeys(('phsA', 'phsB', 'phsC'), CURRENT | {'cVal': MAGNITUDE})}}
FULL_PLATE = {'DC': {'NamPlt': dict.fromkeys(('vendor', 'swRev', 'd', 'configRev', 'ldNs'))}}
UNIT = {'units': dict.fromkeys(('SIUnit', 'multiplier'))}
METER_UNITS = {'CF': dict.fromkeys(('TotW', 'TotVAr', 'Hz'), UNIT)
               | {'A': dict.fromkeys(('phsA', 'phsB', 'phsC'), UNIT)}}
MOST_INPUTS = 64


def switch_shape(*own) -> dict:
    """The shape of XCBR or XSWI in profile 2; `own` is what only one of the two has."""
    values = ('Beh', 'Loc', 'OpCnt', *own, 'Pos', 'BlkOpn', 'BlkCls')
    return {'ST': dict.fromkeys(values, VALUE)} | {'CF': SWITCH['CF']} | PLATE


def control_shapes(behaviour, plate) -> list:
    """The shapes of CSWI, one for each kind of control."""
    status = {'ST': behaviour | POSITION['ST']}
    return [status | ({'CO': {'Pos': parts}} if parts else {}) | SETTINGS | plate
            for parts in CONTROLS.values()]


def inputs_shape(count) -> dict:
    """The shape of GGIO1 of a bay with so many inputs."""
    names = [f'Ind{number}' for number in range(1, count + 1)]
    return {'ST': BEHAVIOUR | dict.fromkeys(names, VALUE),
            'DC': PLATE['DC'] | dict.fromkeys(names, {'d': None})}


NODES = {  # the shapes that a node may have, those of profile 1 first
    'LLN0': [DEVICE, DEVICE | FULL_PLATE],
    'LPHD': [{'ST': dict.fromkeys(('PhyHealth', 'Proxy'), VALUE),
              'DC': {'PhyNam': {'vendor': None}}}],
    'XCBR': [SWITCH, switch_shape('CBOpCap')],
    'XSWI': [SWITCH | {'ST': SWITCH['ST'] | {'SwTyp': VALUE}}, switch_shape('SwTyp', 'SwOpCap')],
    'CSWI': [*control_shapes({}, {}), *control_shapes(BEHAVIOUR, PLATE)],
    'CILO': [INTERLOCKING, {'ST': BEHAVIOUR | INTERLOCKING['ST']} | PLATE],
    'MMXU': [METER, {'ST': BEHAVIOUR} | METER | PLATE,
             {'ST': BEHAVIOUR} | SCALED_METER | METER_UNITS | PLATE],
    'GGIO': [inputs_shape(count) for count in range(1, MOST_INPUTS + 1)]}


def class_of(node) -> str:
    """The class of a logical node: its name without its number."""
    return node if node == 'LLN0' else node.rstrip('0123456789')


def nodes_of(node) -> list:
    """The shapes that a logical node may have; which one it has goes by the bay."""
    return NODES.get(class_of(node), [])


def below(shape, words) -> dict | None:
    """The shape at a name below another, or None."""
    for word in words:
        if not isinstance(shape, dict) or word not in shape:
            return None
        shape = shape[word]
    return shape


def fits(shape, value) -> bool:
    """Whether a value has a shape: a dict of names, a tag, or None for any value without parts."""
    if not isinstance(shape, dict):
        return isinstance(value, Data) and value.tag != mms.STRUCTURE and shape in (None, value.tag)
    return (isinstance(value, Data) and value.tag == mms.STRUCTURE
            and len(shape) == len(value.value) and all(map(fits, shape.values(), value.value)))


def value_text(item, value) -> str:
    """A value or a failure in words; `item` is its name without the domain."""
    if isinstance(value, Failure):
        return f'{ACCESS_ERRORS.get(value.code, "error")} ({value.code})'
    node, *words = item.split('$')
    shapes = [below(shape, words) for shape in nodes_of(node)]
    return shape_text(words, value,
                      next((shape for shape in shapes if shape and fits(shape, value)), None))


def shape_text(words, value, shape) -> str:
    """A value in words, its parts by the names of its shape, where there is one."""
    if value.tag != mms.STRUCTURE:
        return leaf_text(words, value)
    names = list(shape) if shape else [''] * len(value.value)
    parts = [f'{name} {shape_text([*words, name], part, shape and shape[name])}'.lstrip()
             for name, part in zip(names, value.value)]
    return '{' + ', '.join(parts) + '}'


def leaf_text(words, value) -> str:
    """A value without parts, by the last word of its name."""
    word, owner = words[-1] if words else '', words[-2] if len(words) > 1 else ''
    tag, it = value.tag, value.value
    if tag == mms.BITS:
        return bits_text(word, it)
    if tag == mms.BOOLEAN:
        return positions.way_of(it) if word == 'ctlVal' else 'TRUE' if it else 'FALSE'
    if tag == mms.TIME:
        return moment_text(it)
    if tag == mms.TEXT:
        return in_quotes(it)
    if isinstance(it, float):
        return float_text(it)
    if tag == mms.INTEGER and word in ('ctlModel', 'orCat', 'stVal', 'SIUnit'):
        named = {'ctlModel': CONTROL_MODELS, 'orCat': dict(enumerate(ORIGINATORS)),
                 'stVal': STATES.get(owner, {}), 'SIUnit': UNITS}[word].get(it)
        return f'{it} ({named})' if named else str(it)
    return octets_text(it) if isinstance(it, bytes) else str(it)


def bits_text(word, bits) -> str:
    if word == 'Check':
        return CHECKS.get(bits, bits)
    if len(bits) == 2:
        return POSITIONS[bits]
    if len(bits) == 13:
        more = bits[2:]
        return VALIDITIES[bits[:2]] + (f' +{more}' if '1' in more else '')
    return bits


def moment_text(moment) -> str:
    """A moment in milliseconds, and as a date where it is one of our days; octets of another length
    as they are."""
    if isinstance(moment, bytes):
        return octets_text(moment)
    if not moments.is_clock(moment):
        return f'{moment} ms'
    return moments.stamp_text(moment)


def float_text(value) -> str:
    """A float of 32 bits: a whole number with all its digits, and another with as few as say which
    float it is."""
    if value.is_integer() and abs(value) < 1e15:
        return str(value)
    texts = [f'{value:.{digits}g}' for digits in range(1, 10)]
    return next((text for text in texts if single(float(text)) == value), texts[-1])


def single(value) -> float:
    """The float of 32 bits that is nearest to a number; if that is too great, the number itself."""
    try:
        return struct.unpack('>f', struct.pack('>f', value))[0]
    except OverflowError:
        return value


def octets_text(octets) -> str:
    printable = all(0x20 <= octet < 0x7f for octet in octets)
    if printable:
        return in_quotes(octets.decode('ascii'))
    return octets[:12].hex(' ').upper() + (f' .. ({len(octets)} octets)' if len(octets) > 12
                                           else '')


def in_quotes(text) -> str:
    return "'" + text.replace("'", "\\'") + "'"


def cause_text(code) -> str:
    """An AddCause."""
    here = f': {HERE[code]}' if code in HERE else ''
    return f'{ADD_CAUSES.get(code, "cause")} ({code}){here}'


def error_text(kind, code) -> str:
    """The class and the code of a confirmed error, or of a reject."""
    if kind == 'reject':
        return f'rejected: {REJECTS.get(code, "reason {}, {}".format(*code))}'
    return ERRORS.get(code, f'error of class {ERROR_CLASSES.get(code[0], code[0])}, code {code[1]}')
