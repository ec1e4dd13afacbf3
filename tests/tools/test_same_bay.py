"""Whether a server has the bay of a bay file: a server of a bay that is made from another file."""
import tomllib
import unittest

from baytools.bay.names import Names
from baytools.bay.scl import MODELS
from baytools.panel.operating import Operator
from baytools.panel.watch import Watcher
from baytools.wire import mms, stream
from baytools.wire.ber import element, number
from baytools.wire.client import Client
from baytools.wire.conversation import Conversation
from baytools.wire.mms import BITS, BOOLEAN, INTEGER, STRUCTURE, TEXT, TIME, UNSIGNED, Data
from baytools.wire.same_bay import Comparison, compare_with_server
from tests.tool import Tools
from tests.tools.loopback import needs_loopback
from tests.tools.test_capture import ACK, CLIENT, SERVER, pcap, segment
from tests.tools.test_client import Bay as Server, respond, serve_once

HEAD = '[bay]\ndomain = "B1"\nvendor = "V"\nmodel = "M"\nrevision = "1"\n' \
       'scan_max_age_ms = 500\n'
QA1, QB1, QB2, QC1 = (
    f'[[switch]]\nid = "{name}"\nkind = "{kind}"\ncontrol = "{control}"\n'
    + 'travel_ms = 4000\n' * (control != 'status')
    for name, kind, control in (
        ('QA1', 'breaker', 'sbo'), ('QB1', 'disconnector', 'direct'),
        ('QB2', 'disconnector', 'direct'), ('QC1', 'earthing', 'status')))
QA1 += 'sbo_timeout_ms = 2000\n'
METER = '[[meter]]\nid = "M1"\n'
FILE = HEAD + QA1 + QB1 + QB2 + QC1 + METER
GOOD, TYPES = '0' * 13, {'disconnector': 2, 'earthing': 3}


def structure(*parts):
    return Data(STRUCTURE, list(parts))


def status(value, moment=0):
    return [value, Data(BITS, GOOD), Data(TIME, moment)]


def rows_of(text):
    """What a server of this bay answers, by names. Each switch is closed since its own moment."""
    file, rows, counts = tomllib.loads(text), {}, {'XCBR': 0, 'XSWI': 0}
    bay, switches = file['bay'], file['switch']
    vendor, model, revision = (Data(TEXT, bay[key]) for key in ('vendor', 'model', 'revision'))
    rows = {'LLN0$DC': structure(structure(vendor, revision, model)),
            'LPHD1$DC': structure(structure(vendor))}
    blocked = structure(*status(Data(BOOLEAN, False)))
    for place, switch in enumerate(switches, 1):
        own = 'XCBR' if switch['kind'] == 'breaker' else 'XSWI'
        counts[own] += 1
        moment = sum(switch['id'].encode())
        position = status(Data(BITS, '10'), moment)
        kinds = [structure(*status(Data(INTEGER, TYPES[switch['kind']])))] if own == 'XSWI' else []
        model, held = MODELS[switch['control']], switch.get('sbo_timeout_ms', 0)
        rows |= {f'{own}{counts[own]}$ST': structure(
                     structure(*position), blocked, blocked,
                     structure(*status(Data(INTEGER, 1))), *kinds),
                 f'CSWI{place}$ST$Pos': structure(*position, Data(BOOLEAN, False)),
                 f'CSWI{place}$ST': structure(structure(*position, Data(BOOLEAN, False))),
                 f'CSWI{place}$ST$Pos$stVal': position[0],
                 f'CSWI{place}$CF$Pos': structure(Data(INTEGER, model), Data(UNSIGNED, held)),
                 f'CSWI{place}$CF$Pos$ctlModel': Data(INTEGER, model),
                 f'CSWI{place}$CO$Pos$SBO': Data(TEXT, 'granted'),
                 f'CILO{place}$ST$EnaOpn$stVal': Data(BOOLEAN, True),
                 f'CILO{place}$ST$EnaCls$stVal': Data(BOOLEAN, True)}
    phases = [structure(structure(structure(Data(INTEGER, 0))), *blocked.value[1:])] * 3
    measured = structure(*[structure(structure(Data(INTEGER, 0)), *blocked.value[1:])] * 3,
                         structure(*phases))
    rows |= {f'MMXU{place}$MX': measured for place in range(1, len(file.get('meter', [])) + 1)}
    return bay['domain'], rows


class Model:
    """A server of a bay, that takes each operate."""

    def __init__(self, text):
        self.domain, self.rows = rows_of(text)

    def __call__(self, pdu):
        yield respond(pdu.invoke, *self.answer(pdu))

    def answer(self, pdu):
        if pdu.service == 'names':
            return 0xA1, element(0xA0, element(0x1A, self.domain.encode())), element(0x81, b'\0')
        if pdu.service == 'write':
            return 0xA5, element(0x81)
        return 0xA4, element(0xA1, *map(self.value, pdu.names))

    def value(self, name):
        domain, _, item = name.partition('/')
        is_known = domain == self.domain and item in self.rows
        return mms.octets_of(self.rows[item]) if is_known else number(0x80, 10)


def compare_bays(text, file=FILE):
    """How a server of one bay differs from another bay's file, and what it was asked."""
    asked = Server(Model(text))
    with serve_once(asked) as server:
        client = Client(*server.getsockname(), Names(file))
        found = compare_with_server(client, tomllib.loads(file)).lines()
        client.close()
    return found, asked.requests


@needs_loopback
class Differences(unittest.TestCase):
    def test_the_same_bay(self):
        for text in (FILE, HEAD + QA1, HEAD + QB1, FILE.replace('M1', 'M2').replace('QB1', 'QB7')):
            found, asked = compare_bays(text, text)
            self.assertEqual(found, [])
            self.assertEqual([pdu.service for pdu in asked], ['read'])
            self.assertFalse([name for name in asked[0].names if '$CO' in name])

    def test_each_kind_of_difference(self):
        for old, new, *wanted in (
                ('"B1"', '"B2"', 'the server has domain B2, the bay file has B1'),
                ('"V"', '"W"', 'the server has vendor \'W\', the bay file has \'V\''),
                ('"M"', '"N"', 'the server has model \'N\', the bay file has \'M\''),
                ('revision = "1"', 'revision = "2"',
                 'the server has revision \'2\', the bay file has \'1\''),
                ('"direct"', '"sbo-enhanced"',
                 'the server\'s CSWI2 has control sbo-enhanced, the bay file\'s QB1 has direct'),
                ('2000', '2001', 'the server\'s CSWI1 has sbo_timeout_ms 2001, the bay file\'s '
                 'QA1 has 2000'),
                ('"earthing"', '"disconnector"', 'the server\'s XSWI3 has kind disconnector, the '
                 'bay file\'s QC1 has earthing'),
                ('"earthing"', '"breaker"', 'the server has no XSWI3, the bay file\'s QC1',
                 'the server has XCBR2, which the bay file has not'),
                (QC1, '', 'the server has no CSWI4, the bay file\'s QC1',
                 'the server has no XSWI3, the bay file\'s QC1'),
                (QC1, QC1 + QC1, 'the server has CSWI5, which the bay file has not',
                 'the server has XSWI4, which the bay file has not'),
                (METER, '', 'the server has no MMXU1, the bay file\'s M1'),
                (METER, METER * 2, 'the server has MMXU2, which the bay file has not')):
            with self.subTest(new=new):
                self.assertEqual(compare_bays(FILE.replace(old, new, 1))[0], wanted)

    def test_switches_that_changed_places(self):
        """Of two that differ in nothing else but their class."""
        one = QA1.replace('sbo"', 'direct"').replace('sbo_timeout_ms = 2000\n', '')
        found, _ = compare_bays(HEAD + QB1 + one, HEAD + one + QB1)
        self.assertEqual(found, [
            f'the server\'s {control} and {own} are not one switch, '
            f'the bay file\'s {switch} is both' for control, own, switch in (
                ('CSWI1', 'XCBR1', 'QA1'), ('CSWI2', 'XSWI1', 'QB1'))])

    def test_other_parts(self):
        model = Model(FILE)
        model.rows['LLN0$DC'].value[0].value.append(Data(TEXT, 'more'))
        with serve_once(Server(model)) as server:
            client = Client(*server.getsockname(), Names(FILE))
            found = compare_with_server(client, tomllib.loads(FILE)).lines()
            client.close()
        self.assertEqual(found, ['the server\'s LLN0$DC has other parts'])

    def test_what_can_not_be_told(self):
        """Two of one class and control: the revision alone tells it."""
        self.assertEqual(compare_bays(HEAD + QA1 + QB2 + QB1, HEAD + QA1 + QB1 + QB2)[0], [])

    def test_a_large_bay(self):
        """Both positions of a switch stand in one request."""
        text = HEAD + QA1 + ''.join(QB1.replace('QB1', f'QB{n}') for n in range(1, 32))
        found, asked = compare_bays(text, text)
        self.assertEqual((found, len(asked)), ([], 4))
        for pdu in asked:
            names = [name.partition('/')[2] for name in pdu.names]
            for place in range(2, 33):
                pair = f'CSWI{place}$ST$Pos' in names, f'XSWI{place - 1}$ST' in names
                self.assertIn(pair, ((True, True), (False, False)))


@needs_loopback
class Operating(Tools):
    def run_client(self, text, *words, file=FILE):
        asked = Server(Model(text))
        with serve_once(asked) as server:
            found = self.run_tool('client', '--bay', self.file('bay.toml', file),
                                  server.getsockname()[1], *words)
        asks = [name for pdu in asked.requests for name in pdu.names]
        writes = [pdu for pdu in asked.requests if pdu.service == 'write']
        return found, bool(writes) or any('$SBO' in name for name in asks)

    def test_nothing_is_operated_on_another_bay(self):
        other = FILE.replace('revision = "1"', 'revision = "2"')
        for words in (('select', 'QA1'), ('operate', 'QA1', 'close'), ('cancel', 'QA1'),
                      ('operate', 'CSWI2', 'close'), ('operate', 'QB1', 'close', '--unselected')):
            found, is_operated = self.run_client(other, *words)
            self.assertEqual(found.out, 'the server has revision \'2\', the bay file has \'1\'\n')
            self.assertRegex(found.error, 'client: .*bay.toml: the server has another bay, so '
                             'nothing is operated without --anyway\n')
            self.assertEqual((found.status, is_operated), (1, False))

    def test_anyway(self):
        other = FILE.replace('revision = "1"', 'revision = "2"')
        found, is_operated = self.run_client(other, 'operate', 'QA1', 'close', '--anyway')
        self.assertEqual(found.out.splitlines(), [
            'the server has revision \'2\', the bay file has \'1\'', 'select QA1: done',
            'operate QA1: accepted', 'operate QA1: done: closed'])
        self.assertEqual((found.status, is_operated), (0, True))

    def test_the_same_bay(self):
        found, is_operated = self.run_client(FILE, 'operate', 'QB1', 'close')
        self.assertEqual(found.out, 'operate QB1: accepted\noperate QB1: done: closed\n')
        self.assertEqual((found.status, is_operated), (0, True))

    def test_a_file_that_bayctl_refuses(self):
        """Of two switches with one id one would be operated, and it might be the wrong one."""
        found, is_operated = self.run_client(FILE, 'operate', 'QB1', 'close',
                                             file=FILE.replace('"QB2"', '"QB1"'))
        self.assertRegex(found.error, r'bay\.toml is refused with 54: line 19: switch 3 \(QB1\): ')
        self.assertEqual((found.out, found.status, is_operated), ('', 3, False))

    def test_reading_is_not_refused(self):
        found, _ = self.run_client(FILE.replace('"M"', '"N"'), 'read', 'CSWI1$ST$Pos$stVal')
        self.assertEqual((found.out, found.status), ('CSWI1$ST$Pos$stVal (QA1) = closed\n', 0))


@needs_loopback
class Panels(unittest.TestCase):
    def connect_panel(self, text, anyway=False):
        """A panel's watcher of a server that has this bay."""
        server = serve_once(Server(Model(text)))
        self.addCleanup(server.close)
        watcher = Watcher(tomllib.loads(FILE), FILE, *server.getsockname(), anyway)
        watcher.connect()
        self.addCleanup(watcher.client.close)
        return watcher, Operator(watcher)

    def test_another_bay(self):
        watcher, operator = self.connect_panel(FILE.replace('2000', '9'))
        told = 'the server has another bay than the bay file, so nothing is operated'
        for verb in ('select', 'operate', 'cancel'):
            self.assertEqual(operator.act(verb, 'QA1', 'open'), {'good': False, 'told': told})
        self.assertIn('the server\'s CSWI1 has sbo_timeout_ms 9, the bay file\'s QA1 has 2000',
                      [event['told'] for event in watcher.events])
        self.assertTrue(watcher.state['connected'])

    def test_another_bay_has_no_reasons(self):
        watcher, _ = self.connect_panel(FILE.replace('2000', '9'), True)
        for differs, told in ((watcher.differs, 'why is not known: another bay is served'),
                              ([], 'the program does not release it')):
            watcher.differs, watcher.conditions = differs, {}
            found = [{'id': 'QA1', 'position': 'closed', 'quality': 'good',
                      'open': {'free': False}, 'close': {'free': False}}]
            watcher.explain(found, [])
            self.assertEqual(found[0]['open']['why'], told)

    def test_anyway_and_the_same_bay(self):
        for text, anyway in ((FILE.replace('2000', '9'), True), (FILE, False)):
            watcher, operator = self.connect_panel(text, anyway)
            self.assertEqual(watcher.state['barred'], '')
            operator.page_comes('one')
            self.assertTrue(operator.act('select', 'QA1', 'open', 'one')['good'])

    def test_differences_are_told_once(self):
        watcher, _ = self.connect_panel(FILE.replace('2000', '9'))
        count = len(watcher.events)
        watcher.note_connection(watcher.differs)
        self.assertEqual(len(watcher.events), count + 1)
        watcher.note_connection([])
        self.assertEqual(watcher.state['barred'], '')


class Captures(Tools):
    """A captured session, whose answers tell another bay."""

    def talk(self, *asked):
        """What a client asks and a server of another bay answers, as octets of both."""
        model = Model(FILE.replace('"sbo"', '"direct"').replace('revision = "1"',
                                                                'revision = "2"'))
        requests = [mms.read_request(at, [f'B1/{item}']) for at, item in enumerate(asked, 1)]
        answers = [octets for it in requests for octets in model(mms.read_pdu(it))]
        return ([stream.tpkt_frames(stream.data_tsdu(it)) for it in side]
                for side in (requests, answers))

    def test_what_the_answers_tell(self):
        requests, answers = self.talk('CSWI1$CF$Pos$ctlModel', 'LLN0$DC', 'CSWI9$ST$Pos$stVal')
        packets = [segment(CLIENT, SERVER, 99, ACK, b''.join(requests)),
                   segment(SERVER, CLIENT, 69, ACK, b''.join(answers))]
        path, bay = self.file('one.pcap', pcap(packets)), self.file('bay', FILE)
        self.assertEqual(self.run_tool('explain', path, '--port', SERVER[1]).error, '')
        found = self.run_tool('explain', path, '--bay', bay, '--port', SERVER[1])
        self.assertEqual((found.error.splitlines(), found.status), ([
            'another bay: the server\'s CSWI1 has control direct, the bay file\'s QA1 has sbo',
            'another bay: the server has revision \'2\', the bay file has \'1\''], 0))
        again = self.run_tool('explain', path, '--bay', bay, '--port', SERVER[1], '--replay', bay)
        self.assertEqual(again.error.splitlines()[:2], found.error.splitlines())

    def compare_capture(self, *octets):
        held = Comparison(Names(FILE), tomllib.loads(FILE))
        conversation = Conversation(held.bay)
        conversation.on_answer = held.add_answer
        for request, answer in octets:
            conversation.describe_mms(request)
            conversation.answers_mms(answer)
        return held.lines()

    def test_identify_and_names(self):
        who = respond(1, 0xA2, *(element(0x80 + at, text) for at, text in enumerate(
            (b'V', b'M', b'7'))))
        names = respond(2, 0xA1, element(0xA0, element(0x1A, b'CSWI1'), element(0x1A, b'CSWI5$ST')),
                        element(0x81, b'\0'))
        self.assertEqual(self.compare_capture((mms.request_octets(1, 0x82), who),
                                              (mms.names_request(2, 'B1'), names)),
                         ['the server has revision \'7\', the bay file has \'1\'',
                          'the server has CSWI5, which the bay file has not'])

    def test_another_domain(self):
        request = mms.read_request(1, ['B9/LLN0$DC'])
        answer = respond(1, 0xA4, element(0xA1, mms.octets_of(rows_of(FILE)[1]['LLN0$DC'])))
        self.assertEqual(self.compare_capture((request, answer)),
                         ['the server has domain B9, the bay file has B1'])


if __name__ == '__main__':
    unittest.main()
