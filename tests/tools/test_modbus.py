"""tools/modbus between a module and a server that the test plays: what it tells, what it does for a
command, and what it never does."""
import signal
import socket
import subprocess
import threading
import time
import unittest

from tests.tools.driven import (CLOSE, DOUBT, GOOD, LOST, OPEN, PULSE, TIMEOUT, TRAVEL, Counting,
                                Driven)
from tests.tools.fake_module import MS, FakeServer
from tests.tools.loopback import needs_loopback


@needs_loopback
class Telling(Driven):
    """What the server is told."""

    def test_first_values(self):
        self.wait_until_good()
        told = self.server.told
        self.assertEqual(told[0], 'bay - E1 2 b')
        self.assertEqual(told[-1], 'input OK 1')
        self.assertEqual(self.module.holding, {4384: 400})
        self.assertTrue(all(-5 <= here - then <= MS for then, here in self.server.moments))

    def test_contacts_of_no_end_and_of_both(self):
        self.wait_until_good()
        for bits, value in (((False, False), '0'), ((True, True), '3'), ((False, True), '2')):
            self.module.contacts[:2] = bits
            self.wait_for_values({'contact QA1': value})

    def test_what_blocks_is_told_first(self):
        self.wait_until_good()
        self.server.told.clear()
        self.module.contacts[:5] = [False, True, False, False, True]
        self.wait_for_values({'contact QA1': '2', 'contact QC1': '2', 'input ES': '0'})
        self.assertLess(self.server.told.index('input ES 0'),
                        self.server.told.index('contact QA1 2'))

    def test_a_line_has_the_time_of_its_reading(self):
        """A module that is slow makes no line of it look new."""
        self.wait_until_good()
        self.module.contacts[0] = False
        self.module.on_request = lambda function: time.sleep(0.1 if function == 4 else 0)
        self.wait_for_values({'contact QA1': '0'})
        then, here = self.server.moments[self.server.told.index('contact QA1 0')]
        self.assertGreater(here - then, 90)

    def test_no_time_goes_back(self):
        """The driver says that it lives while a slow module is read."""
        self.wait_until_good()
        self.module.on_request = lambda function: time.sleep(0.25 if function == 4 else 0)
        for at in range(8):
            self.module.contacts[0] = bool(at % 2)
            self.wait_for_values({'contact QA1': str(at % 2)})
        self.assertEqual((self.server.went_back, self.server.count), ([], 1))

    def test_a_measure_out_of_its_range(self):
        self.wait_until_good()
        self.module.registers[0] = 101
        self.wait_for_values({'measure M1 AA': 'bad', 'input OK': '1'})
        self.module.registers[0] = 100
        self.wait_for_values({'measure M1 AA': '1000'})

    def test_data_that_stand_still(self):
        self.wait_until_good()
        self.module.stands = True
        self.wait_for_values(LOST)
        self.wait_for_lines('its counter 9 stands still')
        self.module.stands = False
        self.wait_until_good()

    def test_settings_that_a_module_does_not_keep(self):
        self.wait_until_good()
        self.module.holding = type('Deaf', (dict,), {'__setitem__': lambda *it: None})()
        self.module.end_connections()
        self.wait_for_lines('register 4384 does not keep 400')
        self.wait_for_values(LOST)

    def test_magnets_follow_the_releases(self):
        self.wait_until_good()
        self.wait_for_lines('the server tells of no releases, so all magnets stay blocked')
        self.server.send_releases('QA1=11', 'QC1=10')
        time.sleep(0.1)
        self.assertFalse(self.module.coils[2])  # (it is open, and may not be closed)
        self.server.send_releases('QC1=01')
        self.wait_until(lambda: self.module.coils[2])
        self.server.drop()
        self.wait_until(lambda: not self.module.coils[2])

    def test_another_bay(self):
        self.server.end()
        other = FakeServer('E2 2 b')
        self.addCleanup(other.end)
        self.server.port = other.port
        self.start_driver()
        self.assertEqual(self.run.wait(10), 1)
        self.wait_for_lines('the server has bay E2, revision 2 b, the bay file E1, 2 b')
        self.assertFalse(other.told)

    def test_a_server_that_does_not_supervise(self):
        with socket.create_server(('127.0.0.1', 0)) as plain:
            run = subprocess.Popen(self.words('--process', str(plain.getsockname()[1])),
                                   stdout=subprocess.DEVNULL, stderr=subprocess.PIPE, text=True)
            connection, _ = plain.accept()
            with connection:
                connection.sendall(b'1 command QA1 on\n')
                _, error = run.communicate(timeout=20)
        self.assertIn('the server does not greet', error)
        self.assertEqual((run.returncode, self.pulses(CLOSE)), (1, []))


@needs_loopback
class Commands(Driven):
    """What is done for a command."""

    def test_a_command(self):
        self.begin_pulse()
        self.assertEqual(self.module.coils[:2], [False, True])
        self.module.contacts[:2] = [False, True]
        self.wait_for_values({'contact QA1': '2'})
        self.assertTrue(PULSE - 50 < self.pulse_length() < 3 * PULSE, self.pulse_length())
        self.wait_for_lines('QA1 close: done after')
        self.check_one_pulse()

    def test_the_time_of_an_operate_is_over(self):
        self.begin_pulse()
        self.server.send_lines('over QA1')
        self.assertLess(self.pulse_length(), PULSE)
        self.wait_for_lines('QA1 close: not done after')
        self.server.send_lines('command QA1 off', 'over QA1')
        self.wait_for_lines('QA1 open is not carried out: its time is over')
        self.check_one_pulse()
        self.assertEqual(self.pulses(OPEN), [])

    def test_two_commands_at_once(self):
        self.wait_until_good()
        self.server.send_lines('command QA1 on', 'command QA1 off', 'command QA1 on')
        self.wait_for_lines('QA1 open is not carried out: another command of it has not ended')
        self.wait_until(lambda: self.pulses(CLOSE))
        self.wait_until_off()
        self.check_one_pulse()
        self.assertEqual(self.pulses(OPEN), [])

    def test_commands_that_are_too_old_or_mean_nothing(self):
        self.wait_until_good()
        self.server.send_lines('command QA1 on', ahead=-MS - 50)
        for line in ('command QB9 on', 'command QC1 on', 'command QA1 up', 'x command'):
            self.server.send_lines(line)
        self.wait_for_lines('QA1 close is not carried out: it is 1,',
                            'QB9 close is not carried out: the wiring has no coils for it',
                            'QC1 close is not carried out: the wiring has no coils for it')
        self.assertEqual(self.pulses(CLOSE) + self.pulses(OPEN), [])

    def test_a_switch_at_local(self):
        self.wait_until_good()
        self.module.contacts[6] = False
        time.sleep(0.1)
        self.server.send_lines('command QA1 on')
        self.wait_for_lines('its key is not at remote')
        self.assertEqual(self.pulses(CLOSE), [])

    def test_a_key_that_is_turned_within_a_pulse(self):
        self.begin_pulse()
        self.module.contacts[6] = False
        self.assertLess(self.pulse_length(), PULSE)

    def test_a_command_of_another_connection(self):
        """It came before the connection was lost, and its module was asked meanwhile."""
        self.wait_until_good()

        def drop_connection(function):
            if function == 1 and 'command QA1' in self.printed_text():
                self.module.on_request = lambda function: None
                self.server.drop()
                time.sleep(0.1)

        self.module.on_request = drop_connection
        self.server.send_lines('command QA1 on')
        self.wait_for_lines('QA1 close is not carried out: the connection on which it came is lost')
        self.wait_until(lambda: self.server.count == 2)
        self.wait_until_good()
        self.assertEqual(self.pulses(CLOSE), [])

    def test_the_coil_of_the_other_way_is_on(self):
        """Another master holds it: nothing begins until it is off, and both are never on."""
        self.wait_until_good()
        self.module.exception_of_writes = 6
        self.module.coils[OPEN] = True
        self.wait_for_values({'contact QA1': '3'})
        self.server.send_lines('command QA1 on')
        self.wait_for_lines('QA1 close is not carried out: module io is not heard')
        self.module.exception_of_writes = 0
        self.wait_until_off()
        self.assertEqual((self.pulses(CLOSE), self.module.both), ([], False))


@needs_loopback
class TrueBlocks(Driven):
    """An input that blocks while it is TRUE, as a trip."""
    changes = [('fault = false', 'fault = true')]

    def test_a_module_that_is_lost(self):
        self.module.contacts[2] = False
        self.wait_for_values({**GOOD, 'input ES': '0'})
        self.module.stop()
        self.wait_for_values({**LOST, 'input ES': '1'})
        self.wait_for_lines('; till it is heard the server is told ES TRUE')


@needs_loopback
class ReleasesOfDisconnector(Driven):
    """A server that tells of releases, and a disconnector."""
    kind = 'disconnector'

    def test_a_release_that_has_gone(self):
        self.wait_until_good()
        self.server.send_releases('QA1=10', 'QC1=00')
        self.server.send_lines('command QA1 on')
        self.wait_for_lines('QA1 close is not carried out: its release has gone')
        self.server.send_lines('command QA1 off')
        self.wait_until(lambda: self.pulses(OPEN))
        self.wait_until_off()
        self.assertEqual(self.pulses(CLOSE), [])

    def test_a_release_that_goes_before_the_coil_is_on(self):
        self.wait_until_good()
        self.server.send_releases('QA1=11', 'QC1=00')
        self.module.on_request = lambda function: time.sleep(0.1 if function == 1 else 0)
        self.server.send_lines('command QA1 on')
        self.server.send_releases('QA1=10')
        self.wait_for_lines('QA1 close is not carried out: its release has gone')
        self.assertEqual(self.pulses(CLOSE), [])

    def test_a_release_that_goes_within_a_pulse(self):
        self.wait_until_good()
        self.server.send_releases('QA1=11', 'QC1=00')
        self.begin_pulse()
        self.server.send_releases('QA1=10')
        self.assertLess(self.pulse_length(), PULSE / 2)
        self.wait_for_lines('QA1 close: its release has gone, so its pulse ends', 'not done after')

    def test_a_release_of_the_other_way_goes(self):
        self.wait_until_good()
        self.server.send_releases('QA1=11', 'QC1=00')
        self.begin_pulse()
        self.server.send_releases('QA1=01', 'QC1=11')
        self.assertGreater(self.pulse_length(), PULSE - 50)


@needs_loopback
class ReleasesOfBreaker(Driven):
    """A server that tells of releases, and a breaker."""

    def test_a_release_that_has_gone(self):
        self.wait_until_good()
        self.server.send_releases('QA1=10', 'QC1=00')
        self.server.send_lines('command QA1 on')
        self.wait_for_lines('QA1 close is not carried out: its release has gone')
        self.assertEqual(self.pulses(CLOSE), [])

    def test_a_release_that_goes_within_a_pulse(self):
        self.wait_until_good()
        self.server.send_releases('QA1=11', 'QC1=00')
        self.begin_pulse()
        self.server.send_releases('QA1=00')
        self.assertGreater(self.pulse_length(), PULSE - 50)


@needs_loopback
class UntilPosition(Driven):
    """A pulse that lasts until the position."""
    changes = [(f'pulse_ms = {PULSE}', 'pulse = "position"')]

    def test_a_pulse_until_the_position(self):
        self.begin_pulse()
        time.sleep(0.2)
        self.assertTrue(self.module.coils[CLOSE])
        self.module.contacts[:2] = [False, True]
        self.assertLess(self.pulse_length(), TRAVEL - 100)

    def test_a_position_that_does_not_come(self):
        self.begin_pulse()
        self.assertGreater(self.pulse_length(), TRAVEL - 50)
        self.wait_for_lines('QA1 close: not done after')
        self.check_one_pulse()


@needs_loopback
class Patient(Driven):
    """A driver that waits for its modules nearly for as long as a command may be old."""
    changes = [(f'timeout_ms = {TIMEOUT}', f'timeout_ms = {MS - 20}')]

    def test_a_module_that_answers_later_than_a_command_may_be_old(self):
        self.wait_until_good()

        def answer_late(function):
            if function == 1 and 'command QA1' in self.printed_text():
                self.module.on_request = lambda function: None
                time.sleep(0.75 * MS / 1000)

        self.module.on_request = answer_late
        self.server.send_lines('command QA1 on', ahead=-MS // 2)
        self.wait_for_lines('QA1 close is not carried out: it is ')
        self.assertEqual(self.pulses(CLOSE), [])


@needs_loopback
class Slow(Driven):
    """A wiring by which values could be older than the server takes."""
    changes = [(f'timeout_ms = {TIMEOUT}', f'timeout_ms = {MS - 5}')]

    def test_a_pace_that_the_server_does_not_take(self):
        self.assertEqual(self.run.wait(10), 1)
        self.wait_for_lines(f'module io: poll_ms and timeout_ms come to {MS + 5:,}, and the server '
                            f'takes no word older than {MS:,} ms: write less, or give '
                            '--supervise more')


@needs_loopback
class Faults(Driven):
    """What can happen to a module, to the driver and to the server."""

    def test_a_module_that_ends_in_a_pulse_and_comes_again(self):
        self.begin_pulse()
        self.module.stop()
        self.wait_for_values(LOST)
        self.assertEqual(self.server.told[-5:][0], 'input OK 0')
        again = Counting(self.port)
        self.set_module_up(again)
        again.coils[CLOSE] = again.coils[2] = True
        self.module = again
        self.wait_until_good()
        self.assertEqual([it[:2] for it in again.written[:3]],
                         [(OPEN, False), (CLOSE, False), (2, False)])
        self.assertEqual(self.pulses(CLOSE), [])

    def test_a_module_that_is_silent(self):
        self.wait_until_good()
        self.module.is_silent = True
        self.wait_for_values(LOST)
        self.server.send_lines('command QA1 on')
        self.wait_for_lines(f'no answer within {TIMEOUT} ms',
                            'QA1 close is not carried out: module io is not heard')
        self.module.is_silent = False
        self.wait_until_good()
        self.assertEqual(self.pulses(CLOSE), [])

    def test_a_module_that_is_silent_in_a_pulse(self):
        self.begin_pulse()
        self.module.is_silent = True
        self.wait_for_values(LOST)
        self.assertTrue(self.module.coils[CLOSE])  # (nobody can end it but its own watchdog)
        self.module.is_silent = False
        self.wait_until_off()
        self.wait_until_good()
        self.check_one_pulse()

    def test_a_write_that_is_done_late(self):
        """All of the module is bad for its doubt_ms, and the late pulse is cut."""
        self.wait_until_good()
        self.module.late = 1.5 * TIMEOUT / 1000
        self.server.send_lines('command QA1 on')
        self.wait_for_values(LOST)
        lost = time.monotonic()
        self.wait_for_lines('the write of coil 1 may be done late')
        self.wait_until(lambda: self.pulses(CLOSE), 'the late pulse')
        self.assertLess(self.pulse_length(), PULSE)
        self.wait_until_good()
        self.assertGreater(1000 * (time.monotonic() - lost), DOUBT - 200)
        self.check_one_pulse()

    def test_a_write_that_is_done_late_while_all_coils_are_switched_off(self):
        """A connection begins with all coils off. One that comes on between the writes and the
        look at them is off at once, and not only by the next connection."""
        self.wait_until_good()
        look = self.module.on_request

        def switch_on_late(function):
            if function == 1 and self.module.written and self.module.written[-1][1] is False:
                self.module.on_request = look
                self.module.put_coil(CLOSE, True)

        self.module.written.clear()
        self.module.on_request = switch_on_late
        self.module.end_connections()
        self.wait_until(lambda: self.pulses(CLOSE), 'the late pulse')
        self.assertLess(self.pulse_length(), PULSE / 2)
        self.wait_for_lines(f'coil {CLOSE} was written off, and is on')
        self.wait_until_good()

    def test_a_module_that_refuses(self):
        self.wait_until_good()
        self.module.exception = 4
        self.wait_for_values(LOST)
        self.wait_for_lines('exception 4: server device failure')
        self.module.exception = 0
        self.wait_until_good()

    def test_a_module_that_refuses_to_end_a_pulse(self):
        """It is tried until it is done, and all of the module is bad meanwhile."""
        self.begin_pulse()
        self.module.exception_of_writes = 4
        self.wait_for_values(LOST)
        time.sleep(0.2)
        self.assertTrue(self.module.coils[CLOSE])
        self.module.exception_of_writes = 0
        self.wait_until_off()
        self.wait_until_good()
        self.check_one_pulse()
        self.nobodys_coil()

    def nobodys_coil(self):
        """The coil of a pulse that failed belongs to nobody: it is off if it comes on again."""
        self.module.coils[CLOSE] = True
        self.wait_until_off()
        self.wait_until_good()

    def test_a_module_that_is_silent_at_the_end_of_a_pulse(self):
        """The next connection ends it."""
        self.begin_pulse()
        self.module.is_silent = True
        self.wait_for_values(LOST)
        time.sleep(2 * (PULSE + TIMEOUT) / 1000)
        self.module.is_silent = False
        self.wait_until_off()
        self.wait_until_good()
        self.nobodys_coil()

    def test_a_module_that_refuses_to_begin_a_pulse(self):
        self.wait_until_good()
        for exception, is_doubted in ((6, False), (11, True)):
            self.module.exception_of_writes = exception
            self.server.send_lines('command QA1 on')
            self.wait_for_lines(f'QA1 close fails: exception {exception}')
            self.module.exception_of_writes = 0
            self.assertEqual('may be done late' in self.printed_text(), is_doubted)
        self.wait_for_values(LOST)
        self.wait_until_good()
        self.assertEqual(self.pulses(CLOSE), [])
        self.nobodys_coil()

    def test_a_coil_that_does_not_come_on(self):
        self.wait_until_good()
        self.module.put_coil = lambda coil, value: None
        self.server.send_lines('command QA1 on')
        self.wait_for_lines('QA1 close fails: coil 1 reads 0 and coil 0 0 within a pulse of the '
                            'first')
        self.wait_for_values(LOST)
        del self.module.put_coil
        self.wait_until_good()

    def test_a_coil_that_another_master_switches_on(self):
        self.wait_until_good()
        self.module.coils[CLOSE] = True
        self.wait_until_off()
        self.wait_for_values({'contact QA1': '3'})
        self.wait_for_lines('coil 1 was on, and nobody here had asked for it: it is switched off')
        self.wait_until_good()
        self.module.coils[2] = True
        self.wait_until_off()

    def test_a_coil_that_another_master_switches_on_in_a_pulse(self):
        """Both coils are off at once."""
        self.begin_pulse()
        self.module.coils[OPEN] = True
        self.wait_until_off()
        self.assertLess(self.pulse_length(), PULSE)
        self.wait_until_good()
        self.check_one_pulse()

    def test_a_driver_that_is_killed_in_a_pulse(self):
        """The next one begins with all coils off, and repeats nothing."""
        self.begin_pulse()
        self.run.kill()
        self.run.wait()
        self.assertTrue(self.module.coils[CLOSE])
        self.start_driver()
        self.wait_until_off()
        self.wait_until_good()
        self.check_one_pulse()

    def test_off(self):
        self.begin_pulse()
        self.run.kill()
        self.run.wait()
        done = subprocess.run(self.words('--off'), capture_output=True, text=True)
        self.assertEqual((done.returncode, any(self.module.coils)), (0, False))
        self.assertIn('module io: all coils are off', done.stdout)
        self.module.stop()
        done = subprocess.run(self.words('--off'), capture_output=True, text=True)
        self.assertEqual(done.returncode, 3)
        self.assertIn('module io: its coils may be on: no connection', done.stdout)
        self.module = Counting(self.port)

    def test_a_driver_that_is_ended_in_a_pulse(self):
        self.begin_pulse()
        self.run.send_signal(signal.SIGTERM)
        self.assertEqual((self.run.wait(10), any(self.module.coils)), (130, False))
        self.wait_for_lines('module io: all coils are off')

    def test_a_driver_that_stands_still(self):
        """It carries out no command that it slept through."""
        self.wait_until_good()
        self.run.send_signal(signal.SIGSTOP)
        self.server.send_lines('command QA1 on')
        time.sleep(2 * MS / 1000)
        self.run.send_signal(signal.SIGCONT)
        self.wait_for_lines('QA1 close is not carried out: it is')
        self.wait_until_good()
        self.assertEqual(self.pulses(CLOSE), [])

    def test_a_driver_that_stands_still_while_it_asks(self):
        self.wait_until_good()
        is_over = threading.Event()

        def stop_for_a_while(function):
            if function == 1 and 'command QA1' in self.printed_text():
                self.module.on_request = lambda function: None
                self.run.send_signal(signal.SIGSTOP)
                time.sleep(2 * MS / 1000)
                self.run.send_signal(signal.SIGCONT)
                is_over.set()

        self.module.on_request = stop_for_a_while
        self.server.send_lines('command QA1 on')
        self.assertTrue(is_over.wait(10))
        self.wait_for_lines('QA1 close ')
        self.wait_until_good()
        self.assertEqual(self.pulses(CLOSE), [])

    def test_a_server_that_ends_in_a_pulse(self):
        """The pulse ends in its time, and the next server is told all."""
        self.begin_pulse()
        self.server.drop()
        self.wait_until_off()
        self.wait_until(lambda: self.server.count == 2)
        self.wait_until_good()
        self.check_one_pulse()

    def test_a_server_that_stands_still(self):
        """The driver takes it for lost: magnets block, and another connection is begun."""
        self.wait_until_good()
        self.server.send_releases('QC1=01')
        self.wait_until(lambda: self.module.coils[2])
        self.server.is_frozen = True
        self.wait_until(lambda: not self.module.coils[2], seconds=3 * MS / 1000)
        self.wait_for_lines(f'the server has not said for {MS} ms that it lives')
        self.server.is_frozen = False
        self.wait_until_good()


if __name__ == '__main__':
    unittest.main()
