"""The server of a bay as an SCL file (IEC 61850-6)."""
import xml.etree.ElementTree as ET

from baytools.diagnosis.bay_file import profile_of

NAMESPACE = 'http://www.iec.ch/61850/2003/SCL'
ENUMS = {
    'CtlModel': {0: 'status-only', 1: 'direct-with-normal-security', 2: 'sbo-with-normal-security',
                 3: 'direct-with-enhanced-security', 4: 'sbo-with-enhanced-security'},
    'Mod': {1: 'on', 2: 'blocked', 3: 'test', 4: 'test/blocked', 5: 'off'},
    'Health': {1: 'Ok', 2: 'Warning', 3: 'Alarm'},
    'SwTyp': {1: 'Load Break', 2: 'Disconnector', 3: 'Earthing Switch',
              4: 'High Speed Earthing Switch'},
    'CBOpCap': {1: 'None', 2: 'Open', 3: 'Close-Open', 4: 'Open-Close-Open',
                5: 'Close-Open-Close-Open'},
    'SwOpCap': {1: 'None', 2: 'Open', 3: 'Close', 4: 'Open and Close'},
    'SIUnit': {5: 'A', 33: 'Hz', 62: 'Watts', 63: 'VAr'},
    'multiplier': {-6: '\u00b5', -5: '10^-5', -4: '10^-4', -3: 'm', -2: 'c', -1: 'd', 0: '',
                   1: 'da', 2: 'h', 3: 'k', 4: '10^4', 5: '10^5', 6: 'M'},
    'OrCat': {0: 'not-supported', 1: 'bay-control', 2: 'station-control', 3: 'remote-control',
              4: 'automatic-bay', 5: 'automatic-station', 6: 'automatic-remote', 7: 'maintenance',
              8: 'process'}}
FIXED_ROWS = """\
 There are no data sets and no reports, so dchg and qchg trigger nothing; what has valKind RO can't
 be written. The rows of the server are fixed. """
LACKING = """\
 An importer may complain of what the classes of IEC 61850-7-4 demand and this server lacks: Beh,
 Mod, Health and NamPlt of the nodes other than LLN0; hwRev, serNum and location of nameplates;
 configRev and ldNs of LLN0; Loc of XCBR and XSWI; CBOpCap and SwOpCap; ctlModel of BlkOpn and
 BlkCls; units and floating values of MMXU. Beyond the standard's data attributes stands d of NamPlt
 of LLN0 as the model. There are no data sets and no reports, so dchg and qchg trigger nothing; what
 has valKind RO can't be written. Its rows are fixed. Inputs of a bay file have no rows. """
ENDINGS = {'DOType': '_DO', 'DAType': '_DA', 'EnumType': '_Enum'}  # ids are unique over all kinds
CHANGES = {'stVal': 'dchg', 'stSeld': 'dchg', 'mag': 'dchg', 'cVal': 'dchg', 'q': 'qchg'}
FIXED = ('CF', 'DC')  # constraints of what can't be written


def status(kind, *more) -> list:
    """A status value of a data object: its value, quality and time."""
    return [('stVal', 'ST', kind), ('q', 'ST', 'Quality'), ('t', 'ST', 'Timestamp'), *more]


PLATE = [(name, 'DC', 'VisString255') for name in ('vendor', 'swRev', 'd')]
NAME_SPACE = 'IEC 61850-7-4:2007B'
UNITS = {'TotW': 62, 'TotVAr': 63, 'Hz': 33, 'A': 5}  # numbers of SIUnit
PHASES = ('phsA', 'phsB', 'phsC')
ORIGIN = [('orCat', '', 'Enum OrCat'), ('orIdent', '', 'Octet64')]
CANCEL = [('ctlVal', '', 'BOOLEAN'), ('origin', '', 'Struct Origin'), ('ctlNum', '', 'INT8U'),
          ('T', '', 'Timestamp'), ('Test', '', 'BOOLEAN')]
OPER = CANCEL + [('Check', '', 'Check')]
ANALOGUE = [('i', '', 'INT32')]
STRUCTURES = {'Origin': ORIGIN, 'Oper': OPER, 'Cancel': CANCEL, 'Analogue': ANALOGUE,
              'Vector': [('mag', '', 'Struct Analogue')],
              'ScaledAnalogue': ANALOGUE + [('f', '', 'FLOAT32')],
              'ScaledVector': [('mag', '', 'Struct ScaledAnalogue')],
              'Unit': [('SIUnit', '', 'Enum SIUnit'), ('multiplier', '', 'Enum multiplier')]}
UNIT = ('units', 'CF', 'Struct Unit')
MODEL = ('ctlModel', 'CF', 'Enum CtlModel')
CONTROLS = {'status': (), 'direct': ('Oper',), 'sbo': ('SBO', 'Oper', 'Cancel'),
            'sbo-enhanced': ('SBOw', 'Oper', 'Cancel')}
MODELS = {'status': 0, 'direct': 1, 'sbo': 2, 'sbo-enhanced': 4}
VALUE, PHASE, SCALED_VALUE, SCALED_PHASE = [
    [(name, 'MX', f'Struct {kind}'), ('q', 'MX', 'Quality'), ('t', 'MX', 'Timestamp')]
    for name, kind in (('mag', 'Analogue'), ('cVal', 'Vector'),
                       ('mag', 'ScaledAnalogue'), ('cVal', 'ScaledVector'))]
DATA = {  # the class of a data object, and its attributes
    'Mod': ('ENC', status('Enum Mod', MODEL)),
    'Beh': ('ENS', status('Enum Mod')),
    'Health': ('ENS', status('Enum Health')),
    'NamPlt': ('LPL', PLATE),
    'NamPltOfDevice': ('LPL', PLATE + [(name, 'DC', 'VisString255')
                                       for name in ('configRev', 'ldNs')]),
    'PhyNam': ('DPL', [('vendor', 'DC', 'VisString255')]),
    'PhyHealth': ('ENS', status('Enum Health')),
    'Proxy': ('SPS', status('BOOLEAN')),
    'Pos': ('DPC', status('Dbpos', MODEL)),
    'Blk': ('SPC', status('BOOLEAN')),
    'OpCnt': ('INS', status('INT32')),
    'SwTyp': ('ENS', status('Enum SwTyp')),
    'CBOpCap': ('ENS', status('Enum CBOpCap')),
    'SwOpCap': ('ENS', status('Enum SwOpCap')),
    'Loc': ('SPS', status('BOOLEAN')),
    'Ena': ('SPS', status('BOOLEAN')),
    'Ind': ('SPS', status('BOOLEAN', ('d', 'DC', 'VisString255'))),
    'MV': ('MV', VALUE), 'CMV': ('CMV', PHASE),
    'MV_units': ('MV', [*SCALED_VALUE, UNIT]), 'CMV_units': ('CMV', [*SCALED_PHASE, UNIT])}
WYES = {'WYE': 'CMV', 'WYE_units': 'CMV_units'}  # the type of the phases of a WYE
SWITCH = [('Pos', 'Pos'), ('BlkOpn', 'Blk'), ('BlkCls', 'Blk'), ('OpCnt', 'OpCnt')]
INTERLOCKING = [('EnaOpn', 'Ena'), ('EnaCls', 'Ena')]
NODES = {  # the data objects of a node in profile 1, with their types
    'LLN0': [(name, name) for name in ('Mod', 'Beh', 'Health', 'NamPlt')],
    'LPHD': [(name, name) for name in ('PhyNam', 'PhyHealth', 'Proxy')],
    'XCBR': SWITCH, 'XSWI': SWITCH + [('SwTyp', 'SwTyp')],
    'CILO': INTERLOCKING,
    'MMXU': [(name, 'MV') for name in ('TotW', 'TotVAr', 'Hz')] + [('A', 'WYE')]}


def switch_objects(*own) -> list:
    """The data objects of XCBR or XSWI in profile 2; `own` are those that only one of them has."""
    return [*((name, name) for name in ('NamPlt', 'Beh', 'Loc', 'OpCnt', *own)), *SWITCH[:3]]


COMMON = [('NamPlt', 'NamPlt'), ('Beh', 'Beh')]
FULL_NODES = {  # the same in profile 2
    'LLN0': [*NODES['LLN0'][:3], ('NamPlt', 'NamPltOfDevice')], 'LPHD': NODES['LPHD'],
    'XCBR': switch_objects('CBOpCap'), 'XSWI': switch_objects('SwTyp', 'SwOpCap'),
    'CILO': COMMON + INTERLOCKING, 'MMXU': COMMON + NODES['MMXU'],
    'MMXU_units': COMMON + [(name, of + '_units') for name, of in NODES['MMXU']]}


def control_type(control) -> tuple:
    """The type of a controllable position, by the kind of its control."""
    parts = [(name, 'CO', 'ObjRef' if name == 'SBO' else 'Struct Cancel' if name == 'Cancel'
              else 'Struct Oper') for name in CONTROLS[control]]
    return 'DPC', status('Dbpos', ('stSeld', 'ST', 'BOOLEAN'), *parts, MODEL,
                         ('sboTimeout', 'CF', 'INT32U'))


def nodes_of(file) -> list[tuple]:
    """The logical nodes of a bay file in their order: class, instance, type, and the id and the
    entry of the switch or the meter that it is about."""
    found = [('LLN0', '', 'LLN0', '', None), ('LPHD', 1, 'LPHD', '', None)]
    switches, is_full = file.get('switch', []), profile_of(file) == 2
    for kind in ('XCBR', 'XSWI'):
        own = [switch for switch in switches if (switch['kind'] == 'breaker') == (kind == 'XCBR')]
        found += [(kind, place, kind, switch['id'], switch) for place, switch in enumerate(own, 1)]
    for kind in ('CSWI', 'CILO'):
        for place, switch in enumerate(switches, 1):
            name = f'CSWI_{switch["control"]}' if kind == 'CSWI' else kind
            found.append((kind, place, name, switch['id'], switch))
    for place, meter in enumerate(file.get('meter', []), 1):
        name = 'MMXU_units' if is_full and 'scale' in meter else 'MMXU'
        found.append(('MMXU', place, name, meter['id'], meter))
    if is_full and file.get('input'):
        found.append(('GGIO', 1, 'GGIO', '', None))
    return found


def put_values(element, values) -> None:
    """Writes the values of a data object or of a structure, by the names of its parts."""
    for name, value in values.items():
        if isinstance(value, dict):
            put_values(ET.SubElement(element, 'SDI', name=name), value)
        else:
            ET.SubElement(ET.SubElement(element, 'DAI', name=name), 'Val').text = value


class Writer:
    """An SCL file of a bay, of edition 2."""

    def __init__(self, file) -> None:
        self.file, self.is_full = file, profile_of(file) == 2

    def root(self, ied, instance, domain, address, port) -> ET.Element:
        root = ET.Element('SCL', xmlns=NAMESPACE, version='2007', revision='B')
        ET.SubElement(root, 'Header', id=domain, version='1', revision='',
                      nameStructure='IEDName')
        root.append(ET.Comment(FIXED_ROWS if self.is_full else LACKING))
        self.communication(root, ied, address, port)
        self.device(root, ied, instance, domain)
        self.types(root)
        ET.indent(root)
        return root

    def communication(self, root, ied, address, port) -> None:
        network = ET.SubElement(ET.SubElement(root, 'Communication'), 'SubNetwork', name='Station',
                                type='8-MMS')
        point = ET.SubElement(network, 'ConnectedAP', iedName=ied, apName='AP1')
        found = ET.SubElement(point, 'Address')
        kind = 'IPv6' if ':' in address else 'IP'
        words = {kind: address, 'OSI-TSEL': '0001', 'OSI-SSEL': '0001', 'OSI-PSEL': '00000001'}
        if port:
            words['MMS-Port'] = str(port)
        for kind, word in words.items():
            ET.SubElement(found, 'P', type=kind).text = word

    def device(self, root, ied, instance, domain) -> None:
        bay = self.file['bay']
        found = ET.SubElement(root, 'IED', name=ied, manufacturer=bay['vendor'], type=bay['model'],
                              configVersion=bay['revision'])
        services = ET.SubElement(found, 'Services')
        for name in ('DynAssociation', 'GetDirectory', 'GetDataObjectDefinition', 'ReadWrite'):
            limit = {'max': '8'} if name == 'DynAssociation' else {}
            ET.SubElement(services, name, **limit)
        server = ET.SubElement(ET.SubElement(found, 'AccessPoint', name='AP1'), 'Server')
        ET.SubElement(server, 'Authentication', none='true')
        own = {'ldName': domain} if ied + instance != domain else {}
        logical = ET.SubElement(server, 'LDevice', inst=instance, **own)
        for kind, place, kept, told, entry in nodes_of(self.file):
            node = ET.SubElement(logical, 'LN0' if kind == 'LLN0' else 'LN', lnClass=kind,
                                 inst=str(place), lnType=kept, **({'desc': told} if told else {}))
            for object_name, values in self.values(kind, entry).items():
                put_values(ET.SubElement(node, 'DOI', name=object_name), values)

    def values(self, kind, entry) -> dict:
        """The values that the bay file gives, of each data object by its attributes."""
        bay = self.file['bay']
        if kind == 'LPHD':
            return {'PhyNam': {'vendor': bay['vendor']}}
        found = {'CSWI': self.control_values, 'MMXU': self.meter_values,
                 'GGIO': self.input_values}.get(kind, lambda entry: {})(entry)
        models = {'LLN0': 'Mod', 'XCBR': 'Pos', 'XSWI': 'Pos'}
        if kind in models:
            found = {models[kind]: {'ctlModel': ENUMS['CtlModel'][0]}}
        plate = {'vendor': bay['vendor'], 'swRev': bay['revision'],
                 'd': entry['id'] if entry else bay['model']}
        if kind == 'LLN0' and self.is_full:
            plate |= {'configRev': bay['revision'], 'ldNs': NAME_SPACE}
        return found | ({'NamPlt': plate} if self.is_full or kind == 'LLN0' else {})

    @staticmethod
    def control_values(switch) -> dict:
        return {'Pos': {'ctlModel': ENUMS['CtlModel'][MODELS[switch['control']]],
                        'sboTimeout': str(switch.get('sbo_timeout_ms', 0))}}

    def meter_values(self, meter) -> dict:
        """The units of a meter with a scale."""
        if not self.is_full or 'scale' not in meter:
            return {}
        multiplier = ENUMS['multiplier'][meter['scale']]
        units = {name: {'units': {'SIUnit': ENUMS['SIUnit'][number], 'multiplier': multiplier}}
                 for name, number in UNITS.items()}
        return units | {'A': dict.fromkeys(PHASES, units['A'])}

    def input_values(self, _) -> dict:
        names = [it['name'] for it in self.file['input']]
        return {f'Ind{number}': {'d': name} for number, name in enumerate(names, 1)}

    def objects_of(self, kept) -> list[tuple[str, str]]:
        """The data objects of a type of node, with their types."""
        common = COMMON if self.is_full else []
        if kept.startswith('CSWI'):
            return [*common, ('Pos', kept)]
        if kept == 'GGIO':
            return [*common, *((name, 'Ind') for name in self.input_values(None))]
        return (FULL_NODES if self.is_full else NODES)[kept]

    def types(self, root) -> None:
        """The templates: nodes, data objects, structures and enumerations, in this order."""
        templates = ET.SubElement(root, 'DataTypeTemplates')
        objects = {}
        for kind, kept in dict.fromkeys((kind, kept) for kind, _, kept, *_ in nodes_of(self.file)):
            node = ET.SubElement(templates, 'LNodeType', id=kept, lnClass=kind)
            for name, of in self.objects_of(kept):
                ET.SubElement(node, 'DO', name=name, type=of + ENDINGS['DOType'])
                is_control = of.startswith('CSWI')
                objects[of] = control_type(of.partition('_')[2]) if is_control else DATA.get(of)
                if of in WYES:
                    objects[WYES[of]] = DATA[WYES[of]]
        needed = self.objects(templates, objects)
        structures = self.structures(templates, needed)
        for name in sorted(part[5:] for part in structures if part.startswith('Enum ')):
            enum = ET.SubElement(templates, 'EnumType', id=name + ENDINGS['EnumType'])
            for number, word in ENUMS[name].items():
                ET.SubElement(enum, 'EnumVal', ord=str(number)).text = word

    def objects(self, templates, objects) -> list[str]:
        """The types of data objects, and the types that their attributes need."""
        needed = []
        for name, of in objects.items():
            cdc = 'WYE' if name in WYES else of[0]
            found = ET.SubElement(templates, 'DOType', id=name + ENDINGS['DOType'], cdc=cdc)
            if name in WYES:
                for phase in PHASES:
                    ET.SubElement(found, 'SDO', name=phase, type=WYES[name] + ENDINGS['DOType'])
                continue
            for part, constraint, kind in of[1]:
                more = {CHANGES[part]: 'true'} if part in CHANGES else {}
                more |= {'valKind': 'RO'} if constraint in FIXED else {}
                ET.SubElement(found, 'DA', name=part, fc=constraint, **self.kind(kind), **more)
                needed.append(kind)
        return needed

    def structures(self, templates, needed) -> list[str]:
        """The types of structures that are needed, and all that these and the others need."""
        found = []
        for kind in needed:
            if kind in found:
                continue
            found.append(kind)
            if kind.startswith('Struct '):
                needed += [part for _, _, part in STRUCTURES[kind[7:]]]
        for kind in found:
            if kind.startswith('Struct '):
                structure = ET.SubElement(templates, 'DAType', id=kind[7:] + ENDINGS['DAType'])
                for part, _, of in STRUCTURES[kind[7:]]:
                    ET.SubElement(structure, 'BDA', name=part, **self.kind(of))
        return found

    def kind(self, kind) -> dict:
        basic, _, of = kind.partition(' ')
        ending = ENDINGS['EnumType' if basic == 'Enum' else 'DAType']
        return {'bType': basic, **({'type': of + ending} if of else {})}


def text_of(root) -> str:
    return '<?xml version="1.0" encoding="UTF-8"?>\n' + ET.tostring(root, 'unicode') + '\n'
