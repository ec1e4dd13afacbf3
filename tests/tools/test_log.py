"""tools/log: lines of bayctl and stunnel, by themselves and as journalctl prints them, joined by
address and port; and the span of a day."""
import datetime
import hashlib
import json
import re
import unittest
from html.parser import HTMLParser

from baytools.log import server_lines
from baytools.log.digest import Span, without_link
from baytools.log.entries import Entry, entries_of, entry_of, moment_with_zone
from baytools.log.server_lines import event_of
from tests.tool import Tools, zone

DAY = 1_795_824_000_000  # 2026-11-28 00:00 UTC
START = DAY + 36_000_000
NOW = START + 86_400_000
BLOCKED = 'the interlocking does not release the operation'

def utc(moment):
    return datetime.datetime.fromtimestamp(moment / 1000, datetime.UTC)


def at(after):
    """The time so many milliseconds after START as a server logs it."""
    return f'{utc(START + after):%Y-%m-%dT%H:%M:%S}.{(START + after) % 1000:03}Z'


SUM = hashlib.sha256(b'').hexdigest()
SERVER = f'''instructions=14 depth=2 budget=14
rules 9
diagram 16
{at(0)} clients on 127.0.0.1:10102, process on 127.0.0.1:10103
{at(0)} bay SHA-256 {SUM}
{at(0)} rules SHA-256 {SUM}, 9 hold
{at(0)} diagram SHA-256 {SUM}, 16 hold
{at(0)} the record has room for 16000000 octets: about 133 minutes without clients, \
about 32 beside a panel and a station's page
{at(10)} process lost
{at(10)} position QB1 bad
{at(10)} release QB1 open=0 close=0
{at(50)} process open
{at(60)} position QB1 closed
{at(60)} release QB1 open=1 close=0
{at(1100)} association 1 open from 127.0.0.1:56620
{at(1200)} association 1 select QA1: done
{at(1210)} association 1 operate QB1 close orCat=2 orIdent=<b> ctlNum=0: refused 10: {BLOCKED}
{at(1220)} association 2 open from 127.0.0.1:40000
{at(1230)} association 2 operate QB1 open orCat=-3 orIdent= ctlNum=7: done
{at(1330)} association 1 closed 0: its client ended it
{at(1350)} position QB1 open
{at(1350)} release QB1 open=1 close=1
{at(1350)} operate of QB1 ended: position reached
{at(1360)} association 2 operate QB1 close orCat=2 orIdent= ctlNum=8: done
{at(1400)} process closed 134: no line for 500 ms
{at(1400)} process lost
{at(1400)} position QB1 bad
{at(2650)} process open
{at(2700)} operate of QB1 ended: time over
{at(3000)} the system's clock is 1200 ms ahead
{at(3100)} association 2 closed 131: its connection failed, or it sent nothing for too long
{at(3200)} refused 113: 0 contact QX 1
{at(4000)} 12 lines of connections left out
'''
PRINTED = f'''{START + 50} process open
{START + 1230} command QB1 off
{START + 1330} closed 1 0
{START + 1360} command QB1 on
{START + 1400} process closed 134
{START + 2650} process open
{START + 3100} closed 2 131
{START + 3200} refused 113
'''
DOOR = '''2026.11.28 10:00:00 LOG5[ui]: stunnel 5.68 on x86_64-pc-linux-gnu platform
2026.11.28 10:00:00 LOG5[ui]: Configuration successful
2026.11.28 10:00:00 LOG5[0]: Service [bay] accepted connection from 10.0.0.7:59882
2026.11.28 10:00:00 LOG3[0]: SSL_accept: ../ssl/statem/statem_srvr.c:3517: error:0A0000C7:SSL \
routines::peer did not return a certificate
2026.11.28 10:00:00 LOG5[0]: Connection reset/closed: 0 byte(s) sent to TLS, 0 byte(s) sent to \
socket
2026.11.28 10:00:01 LOG5[1]: Service [bay] accepted connection from 10.0.0.9:59886
2026.11.28 10:00:01 LOG5[2]: Service [bay] accepted connection from 10.0.0.8:59954
2026.11.28 10:00:01 LOG5[1]: Certificate accepted at depth=0: O=Station, CN=operator
2026.11.28 10:00:01 LOG4[2]: CERT: Pre-verification error: certificate revoked
2026.11.28 10:00:01 LOG5[1]: s_connect: connected 127.0.0.1:10102
2026.11.28 10:00:01 LOG4[2]: Rejected by CERT at depth=0: O=Station, CN=old
2026.11.28 10:00:01 LOG5[1]: Service [bay] connected remote server from 127.0.0.1:56620
2026.11.28 10:00:01 LOG3[2]: SSL_accept: ../ssl/statem/statem_srvr.c:3530: error:0A000086:SSL \
routines::certificate verify failed
2026.11.28 10:00:02 LOG5[1]: Connection closed: 5 byte(s) sent to TLS, 5 byte(s) sent to socket
2026.11.28 10:00:02 LOG5[3]: Service [bay] accepted connection from ::ffff:10.0.0.8:1
2026.11.28 10:00:02 LOG3[3]: SSL_accept: ../ssl/record/ssl3_record.c:350: error:0A00010B:SSL \
routines::wrong version number
2026.11.28 10:00:03 LOG5[4]: Service [bay] accepted connection from 10.0.0.9:2
2026.11.28 10:00:03 LOG5[4]: Certificate accepted at depth=0: O=Station, CN=operator
2026.11.28 10:00:03 LOG3[4]: s_connect: connect 127.0.0.1:10102: Connection refused (111)
2026.11.28 10:00:03 LOG3[4]: No more addresses to connect
2026.11.28 10:00:03 LOG3[ui]: Failed to load the revocation list
2026.11.28 10:00:04 LOG5[ui]: Terminated
'''
TOLD = f'''all that the log has

Who asked
  O=Station, CN=operator: 1 association, 1 done, 1 refused, from 10.0.0.9
  no certificate, from 127.0.0.1: 1 association, 2 done, 0 refused, from 127.0.0.1

Why controls were refused
  1 time: the interlocking does not release the operation (10)

How operates ended
  1 time: position reached
  1 time: time over

Who was not let in
  1 time from 10.0.0.7: it showed no certificate
  1 time from 10.0.0.8: certificate revoked; it showed a certificate of O=Station, CN=old
  1 time from 10.0.0.8: it speaks no TLS
  1 time from 10.0.0.9: 127.0.0.1:10102 is not reached: Connection refused; it showed a \
certificate of O=Station, CN=operator

The process
  a process was lost 1 time, for 1.25 s

What happened
  10:00:00.000  the bay and its program are loaded: instructions=14 depth=2 budget=14
  10:00:00.000  each of the 9 rules holds
  10:00:00.000  none of 16 operations is released while it is a hazard in the diagram
  10:00:00.000  the server listens: clients on 127.0.0.1:10102, process on 127.0.0.1:10103
  10:00:00.000  the server serves: bay SHA-256 {SUM}
  10:00:00.000  the server serves: rules SHA-256 {SUM}, 9 hold
  10:00:00.000  the server serves: diagram SHA-256 {SUM}, 16 hold
  10:00:00.000  the record has room for 16000000 octets: about 133 minutes without clients, \
about 32 beside a panel and a station's page
  10:00:00.000  [from 10.0.0.7] not let in: it showed no certificate
  10:00:00.000  stunnel starts
  10:00:00.000  stunnel has read its configuration, and with it the revocation list
  10:00:00.010  the process is lost: no operate is accepted until it speaks
  10:00:00.010  QB1 is bad
  10:00:00.010  QB1 may be neither opened nor closed
  10:00:00.050  the process has connected
  10:00:00.060  QB1 is closed
  10:00:00.060  QB1 may be opened, not closed
  10:00:01.000  [from 10.0.0.8] not let in: certificate revoked; it showed a certificate of \
O=Station, CN=old
  10:00:01.100  [O=Station, CN=operator] association 1 opened from 10.0.0.9:59886
  10:00:01.200  [O=Station, CN=operator] select QA1: done
  10:00:01.210  [O=Station, CN=operator] operate QB1 close (orIdent <b>): refused (10): the \
interlocking does not release the operation
  10:00:01.220  [no certificate, from 127.0.0.1] association 2 opened from 127.0.0.1:40000
  10:00:01.230  [no certificate, from 127.0.0.1] operate QB1 open: done
  10:00:01.230  command: open QB1
  10:00:01.330  [O=Station, CN=operator] association 1 closed (0): its client ended it
  10:00:01.350  QB1 is open
  10:00:01.350  QB1 may be opened and closed
  10:00:01.350  [no certificate, from 127.0.0.1] operate of QB1 ended: position reached
  10:00:01.360  [no certificate, from 127.0.0.1] operate QB1 close: done
  10:00:01.360  command: close QB1
  10:00:01.400  the process's connection is closed (134): no line for 500 ms
  10:00:01.400  the process is lost: no operate is accepted until it speaks
  10:00:01.400  QB1 is bad
  10:00:02.000  [from 10.0.0.8] not let in: it speaks no TLS
  10:00:02.650  the process has connected
  10:00:02.700  [no certificate, from 127.0.0.1] operate of QB1 ended: time over
  10:00:03.000  the system's clock is 1200 ms ahead
  10:00:03.000  [from 10.0.0.9] not let in: 127.0.0.1:10102 is not reached: Connection refused; \
it showed a certificate of O=Station, CN=operator
  10:00:03.000  stunnel: Failed to load the revocation list
  10:00:03.100  [no certificate, from 127.0.0.1] association 2 closed (131): its connection \
failed, or it sent nothing for too long
  10:00:03.200  a line of the process is refused (113): 0 contact QX 1
  10:00:04.000  12 lines of clients that came and went are left out
  10:00:04.000  stunnel ends
'''


def of_journal(form):
    """The lines of both as journalctl prints them in a format."""
    said = (SERVER + PRINTED).splitlines()
    lines = [(START, 'bayctl[812]', line) for line in said[:3]]
    for line in said[3:]:
        lines.append((event_of(Entry(line), 0).moment, 'bayctl[812]', line))
    for line in DOOR.splitlines():
        clock = datetime.datetime.strptime(line[:19], '%Y.%m.%d %H:%M:%S')
        moment = int(clock.replace(tzinfo=datetime.UTC).timestamp()) * 1000
        lines.append((moment, 'stunnel[77]', line[20:]))
    return ''.join(form(moment, program, text) + '\n' for moment, program, text in sorted(
        lines, key=lambda it: it[0]))


def as_json(moment, program, text):
    name, _, number = program.rstrip(']').partition('[')
    return json.dumps({'__REALTIME_TIMESTAMP': str(moment * 1000), 'SYSLOG_IDENTIFIER': name,
                       '_PID': number, 'MESSAGE': text})


FORMATS = {
    'short-iso': lambda moment, program, text:
        f'{utc(moment):%Y-%m-%dT%H:%M:%S+0000} box {program}: {text}',
    'short-iso of later journals': lambda moment, program, text:
        f'{utc(moment):%Y-%m-%dT%H:%M:%S+00:00} box {program}: {text}',
    'short-iso-precise': lambda moment, program, text:
        f'{utc(moment):%Y-%m-%dT%H:%M:%S.%f+0000} box {program}: {text}',
    'short': lambda moment, program, text: f'{utc(moment):%b %d %H:%M:%S} box {program}: {text}',
    'short-precise': lambda moment, program, text:
        f'{utc(moment):%b %d %H:%M:%S.%f} box {program}: {text}',
    'short-full': lambda moment, program, text:
        f'{utc(moment):%a %Y-%m-%d %H:%M:%S} UTC box {program}: {text}',
    'short-unix': lambda moment, program, text:
        f'{moment // 1000}.{moment % 1000:03}000 box {program}: {text}',
    'json': as_json}


class Logs(Tools):
    def run_log(self, *words, given='', status=0):
        found = self.call_tool('log', *words, given=given)
        self.assertEqual(found.status, status, found)
        return found

    def both(self):
        return self.file('server', SERVER), self.file('out', PRINTED), self.file('door', DOOR)

    def test_files(self):
        found = self.run_log(*self.both())
        self.assertEqual(found.out, TOLD)
        self.assertEqual(found.error, '')

    def test_logs_of_earlier_versions(self):
        """They have milliseconds since 1970, on and off, and no more than links and controls."""
        earlier = re.sub(r'(?m)^\S+ (position|release|operate of|process lost).*\n', '', SERVER)
        earlier = re.sub(r'(?m)^\S+Z(?= )', lambda it: str(moment_with_zone(it[0])), earlier)
        earlier = earlier.replace('QB1 close', 'QB1 on').replace('QB1 open o', 'QB1 off o')
        _, out, door = self.both()
        found = self.run_log(self.file('server', earlier), out, door)
        gone = re.compile(r'( ended: | is (open|closed|bad)$| may be | is lost: )', re.MULTILINE)
        ends = '\nHow operates ended\n  1 time: position reached\n  1 time: time over\n'
        kept = [it for it in TOLD.replace(ends, '').splitlines() if not gone.search(it)]
        self.assertEqual(found.out.splitlines(), kept)

    def test_the_journal_in_each_format(self):
        """Joined as in files; times of stunnel have the journal's accuracy."""
        asked = TOLD.partition('\nThe process')[0]
        for name, form in FORMATS.items():
            text = of_journal(form)
            found = self.run_log('-', given=text)
            if name in ('short', 'short-precise'):
                continue  # whose years depend on the clock of this machine: below
            self.assertEqual(found.out.partition('\nThe process')[0], asked, name)
            self.assertIn('command: open QB1', found.out)
            self.assertEqual(found.error, '', name)

    def test_dates_without_a_year(self):
        self.enterContext(zone('UTC'))
        for name in ('short', 'short-precise'):
            entries = list(entries_of(of_journal(FORMATS[name]).splitlines(), NOW))
            self.assertEqual({it.source for it in entries}, {'bayctl[812]', 'stunnel[77]'})
            self.assertTrue(all(START <= it.moment <= START + 4000 for it in entries), name)
        line = 'Dec 31 23:59:59 box bayctl[1]: x'
        for now, year in ((DAY, 2025), (DAY + 34 * 86_400_000, 2026)):
            self.assertEqual(utc(entry_of(line, now).moment).year, year)
        self.assertIsNone(entry_of('Feb 30 00:00:00 box bayctl[1]: x', DAY).moment)

    def test_lines_of_others(self):
        journal = of_journal(FORMATS['short-iso'])
        systemd = f'{utc(START + 60):%Y-%m-%dT%H:%M:%S+0000} box systemd[1]: Started bayctl.service'
        text = f'{systemd}\n{journal}-- Boot 0123 --\n{systemd}\n'
        found = self.run_log('-', given=text)
        self.assertEqual(found.error, 'log: 3 lines of other programs left out\n')
        self.assertNotIn('systemd', found.out)
        found = self.run_log('-', '--also', 'systemd', given=text)
        self.assertIn('10:00:00.000  [systemd[1]] Started bayctl.service', found.out)
        self.assertEqual(found.error, 'log: 1 line of other programs left out\n')

    def test_spans(self):
        files = self.both()
        for words, count in ((['--day', '2026-11-28'], 1), (['--day', '2026-11-27'], 0),
                             (['--from', '2026-11-28 10:00:01'], 1),
                             (['--to', '2026-11-28 10:00'], 0), (['--to', '2026-11-28'], 0),
                             (['--from', '2026-11-28 09:00', '--to', '2026-11-28 10:00:02'], 1)):
            found = self.run_log(*files, *words)
            self.assertEqual(found.out.count('operate QB1 open: done'), count, words)
        found = self.run_log(*files, '--from', '2026-11-28 10:00:02', '--to', '2026-11-28 10:00:03')
        self.assertIn('from 2026-11-28 10:00:02.000Z to 2026-11-28 10:00:03.000Z', found.out)
        self.assertIn('no certificate, from 127.0.0.1: 1 association, 0 done, 0 refused', found.out)
        self.assertIn('a process was lost 1 time, for 0.65 s', found.out)
        self.assertNotIn('select QA1', found.out)
        for words, told in ((['--day', 'x'], 'x is no day such as'),
                            (['--from', '2026-11-31'], '2026-11-31 is no time such as'),
                            (['--day', 'today', '--to', '2026-11-28'], '--day goes without --from'),
                            (['--from', '2026-11-28', '--to', '2026-11-28'], 'is not before --to')):
            self.assertIn(told, self.run_log(*files, *words, status=2).error)

    def test_spans_that_meet(self):
        span = Span(10, 20)
        self.assertEqual([span.meets(*it) for it in (
            (0, 9), (0, 10), (19, None), (20, 30), (None, 5), (None, None))],
            [False, True, True, False, False, True])

    def test_several_days_have_dates(self):
        later = f'{DAY + 90_000_000} process closed 0: it ended its connection\n'
        found = self.run_log(self.file('server', SERVER + later))
        self.assertIn('2026-11-29 01:00:00.000Z  the process\'s connection is closed (0)',
                      found.out)
        self.assertIn('and it has not come back 1 time', found.out)

    def test_the_page(self):
        out = self.folder / 'day.html'
        self.assertEqual(self.run_log(*self.both(), '--html', out).out, '')
        text = out.read_text()
        parser = Balanced()
        parser.feed(text)
        self.assertEqual(parser.open, [])
        for told in ('O=Station, CN=operator', '(orIdent &lt;b&gt;)', 'connection is closed (134)',
                     '<h2>How operates ended</h2>', '<td>QB1 may be opened and closed</td>',
                     'certificate revoked; it showed a certificate of O=Station, CN=old'):
            self.assertIn(told, text)
        self.assertNotIn('<b>', text)
        line = f'{utc(START):%Y-%m-%dT%H:%M:%S+0000} box odd[1]: <span class="x">\n'
        self.run_log('-', '--also', 'odd', '--html', out, given=line)
        self.assertIn('&lt;span class=&quot;x&quot;&gt;', out.read_text())
        empty = self.run_log(*self.both(), '--html', out, '--day', '2026-11-01')
        self.assertEqual(out.read_text().count('Nobody.'), 2, empty)

    def test_what_can_not_be_read(self):
        self.assertEqual(self.run_log('none', status=3).error,
                         'log: none: No such file or directory\n')
        odd = self.file('odd', b'\xff\x1b[2J\n{"a": 1}\n{' + b'[' * 5000 + b'\n')
        found = self.run_log(odd, status=3)
        self.assertTrue(found.error.endswith('no line of bayctl or stunnel\n'), found.error)
        found = self.run_log(*self.both(), '--html', self.folder / 'no' / 'x.html', status=3)
        self.assertIn('there is no folder', found.error)

    def test_what_is_missing(self):
        server, out, gate = self.both()
        self.assertIn('bayctl was started without --log', self.run_log(out).error)
        self.assertIn('no line of bayctl: what was asked is not told', self.run_log(gate).error)
        late = self.file('late', SERVER.replace('T10:', 'T12:'))
        found = self.run_log(late, gate)
        self.assertIn('1 connection that stunnel let in fits no association', found.error)
        self.assertNotIn('CN=operator: 1 association', found.out)


class Joins(Tools):
    """Which connection an association is joined with."""

    def who_asked(self, server, gate):
        found = self.call_tool('log', self.file('server', server), self.file('door', gate))
        return found.out.partition('Who asked\n')[2].partition('\n\n')[0]

    def test_a_port_that_is_used_again(self):
        again = SERVER + f'{START + 60_000} association 1 open from 127.0.0.1:56620\n'
        other = DOOR.replace('10:00:0', '10:01:0').replace('CN=operator', 'CN=panel')
        found = self.who_asked(again, DOOR + other)
        self.assertIn('CN=operator: 1 association, 1 done, 1 refused', found)
        self.assertIn('CN=panel: 1 association, 0 done, 0 refused', found)
        local = SERVER + f'{START + 9_000} association 1 open from 127.0.0.1:56620\n'
        self.assertIn('no certificate, from 127.0.0.1: 2 associations', self.who_asked(local, DOOR))

    def test_another_server(self):
        """A port of this machine that is used toward another server is not meant."""
        self.assertNotIn('CN=operator', self.who_asked(SERVER, DOOR.replace(':10102', ':10202')))

    def test_a_clock_that_is_apart(self):
        shift = f'{START + 10} the system\'s clock is 20000 ms ahead\n'
        moved = DOOR.replace('10:00:0', '10:00:2')
        self.assertNotIn('CN=operator', self.who_asked(SERVER, moved))
        lines = SERVER.splitlines(keepends=True)
        self.assertIn('CN=operator: 1', self.who_asked(''.join(lines[:8] + [shift] + lines[8:]),
                                                       moved))

    def test_a_log_that_begins_late(self):
        late = ''.join(SERVER.splitlines(keepends=True)[15:])
        self.assertIn('unknown: its opening is not in the log: 1 association, 1 done, 1 refused',
                      self.who_asked(late, DOOR))

    def test_a_server_that_starts_again(self):
        """Its associations are new ones, though it never told the ends of the old ones."""
        again = SERVER + (f'{START + 4000} association 3 open from 127.0.0.1:7\n'
                          f'{START + 9000} clients on 127.0.0.1:10102\n'
                          f'{START + 9100} association 3 operate QA1 on orCat=2 orIdent= ctlNum=0: '
                          'done\n')
        self.assertIn('unknown: its opening is not in the log: 1 association, 1 done',
                      self.who_asked(again, DOOR))


class Lines(unittest.TestCase):
    def test_what_each_line_says(self):
        for text, kind, words in (
                ('position QA1 intermediate', server_lines.POSITION, 'QA1 is intermediate'),
                ('release Q_1 open=0 close=1', server_lines.RELEASE,
                 'Q_1 may be closed, not opened'),
                ('process lost', server_lines.LOST,
                 'the process is lost: no operate is accepted until it speaks'),
                ('operate of QA1 ended: time over', server_lines.DONE,
                 'operate of QA1 ended: time over')):
            for moment in (f'{at(1)}', f'{START + 1}'):
                found = event_of(Entry(f'{moment} {text}'), 0)
                self.assertEqual((found.kind, found.moment), (kind, START + 1), text)
                self.assertEqual(without_link(found)[0], words)

    def test_a_line_that_looks_like_one_of_a_journal(self):
        """Of a file without a journal: the host `refused`, the program 113."""
        entry = entry_of(f'{at(5)} refused 113: 0 contact QX 1', NOW)
        self.assertEqual(event_of(entry, 0).words, '0 contact QX 1')

    def test_identities_that_look_like_an_answer(self):
        told = 'A ctlNum=1: done ctlNum=2: refused 9: x'
        line = f'5 association 1 operate Q1 on orCat=2 orIdent={told} ctlNum=7: done'
        found = event_of(Entry(line), 0)
        self.assertEqual((found.identity, found.is_good()), (told, True))

    def test_lines_that_are_none(self):
        for line in ('', 'x', '5', '5 scan steps=1', '5 association 1', '5 command QA1 up',
                     '5 position QA1 up', '5 release QA1 open=2 close=0', '5 process lost: x',
                     '5 operate of QA1 ended: x', '2026-11-28T10:00:00Z process open',
                     '2026-11-31T10:00:00.000Z process open', f'{at(5)}  process open',
                     'x 5 process open', '٥ process open', '5 closed 1',
                     '9' * 21 + ' process open'):
            self.assertIsNone(event_of(Entry(line), 0), line)

    def test_lines_without_a_moment(self):
        found = event_of(Entry('bayctl: fault 121: port 5: another program uses it'), 7)
        self.assertEqual((found.kind, found.moment), (server_lines.FAULT, 7))
        found = event_of(Entry('load refused 72 line 3', 9), 7)
        self.assertEqual((found.kind, found.moment), (server_lines.FAULT, 9))


class Balanced(HTMLParser):
    """The elements of a page that are not closed."""

    def __init__(self) -> None:
        super().__init__()
        self.open = []

    def handle_starttag(self, tag, attrs) -> None:
        if tag != 'meta':
            self.open.append(tag)

    def handle_endtag(self, tag) -> None:
        assert self.open.pop() == tag, tag


if __name__ == '__main__':
    unittest.main()
