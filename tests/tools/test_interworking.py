"""The sessions of other makers' clients: their file, and how a server is held against it."""
import socket
import threading
import unittest

from baytools.common.paths import TOP
from baytools.wire import mms, stream
from devtools.interworking import Connection, is_as, play, sessions_of
from tests.tools.loopback import needs_loopback

FILE = TOP / 'examples' / '13_interworking' / 'sessions'
TEXT = '''== one
# a note
- a connection
> 03000005aa
< 03000006bb..
- nothing is sent
< 03000005cc
- the end
> 03000005dd
< closed
'''


class Files(unittest.TestCase):
    def test_the_file_is_read(self):
        found = sessions_of(FILE.read_text(encoding='utf-8'))
        self.assertGreater(len(found), 8)
        self.assertTrue(all(it.notes and it.steps for it in found))
        steps = [step for it in found for step in it.steps]
        self.assertTrue(all(step.what and step.answers for step in steps))
        for step in steps:
            self.assertEqual(int.from_bytes(step.sent[2:4]), len(step.sent), step.what)
            for answer in step.answers:
                if answer != 'closed':
                    self.assertEqual(int(answer[4:8], 16), len(answer) // 2, step.what)

    def test_requests_are_read_as_they_are_meant(self):
        """The tools read each request; each session begins with a connection request."""
        kinds = set()
        for session in sessions_of(FILE.read_text(encoding='utf-8')):
            octets = stream.Stream()
            got = [it for step in session.steps for it in octets.feed(step.sent)]
            self.assertIn(got[0].kind, ('CR', 'fault'))
            for it in got:
                if it.kind == 'mms':
                    pdu = mms.read_pdu(it.octets)
                    self.assertIn(pdu.kind, ('request', 'conclude', 'other'))
                    kinds.add(pdu.service)
        self.assertLessEqual({'names', 'read', 'write', 'attributes', 'identify'}, kinds)

    def test_lines_that_are_none(self):
        with self.assertRaises(ValueError):
            sessions_of('== one\n? what\n')

    def test_an_octet_that_may_be_any(self):
        self.assertTrue(is_as('03..05', bytes.fromhex('03ff05')))
        for wanted, found in (('03..05', '03ff06'), ('03..05', '03ff'), ('03..', '03ff05'),
                              ('closed', '03'), ('03', '')):
            self.assertFalse(is_as(wanted, bytes.fromhex(found)))
        self.assertTrue(is_as('closed', b''))


@needs_loopback
class Plays(unittest.TestCase):
    def play_to(self, answers, text=TEXT):
        """Plays a session to a server that answers so to each message, and sends what follows."""
        server = socket.create_server(('127.0.0.1', 0))
        self.addCleanup(server.close)

        def serve():
            connection, _ = server.accept()
            with connection:
                for answer in answers:
                    connection.recv(100)
                    connection.sendall(bytes.fromhex(answer))

        threading.Thread(target=serve, daemon=True).start()
        session, = sessions_of(text)
        return play(session, lambda: Connection(*server.getsockname()))

    def test_a_session_that_goes_as_it_should(self):
        lines, connection = self.play_to(['03000006bb0103000005cc', ''])
        self.assertEqual(lines, [])
        self.assertEqual([(side, octets.hex()) for _, side, octets in connection.seen], [
            (0, '03000005aa'), (1, '03000006bb01'), (1, '03000005cc'), (0, '03000005dd')])

    def test_the_first_difference(self):
        lines, _ = self.play_to(['03000006bc01'])
        self.assertEqual(lines, [
            'one: a connection:\n  03000006bc01\n  in the place of\n  03000006bb..'])
        lines, _ = self.play_to(['03000006bb01'])
        self.assertEqual(lines, [
            'one: nothing is sent:\n  closed\n  in the place of\n  03000005cc'])

    def test_what_is_sent_again(self):
        text = '== one\n- a step\n>> 03000005aa\n< 03000005bb\n'
        lines, connection = self.play_to(['03000005b0', '03000005bb'], text)
        self.assertEqual((lines, len(connection.seen)), ([], 4))


if __name__ == '__main__':
    unittest.main()
