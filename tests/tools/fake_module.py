"""A Modbus/TCP module that can fail, and a server at whose process port a driver hangs: what tests
of tools/modbus play."""
import contextlib
import socket
import socketserver
import struct
import threading
import time

MS = 1000  # within which the server must hear of its process


class FakeModule(socketserver.ThreadingTCPServer):
    """A module of 16 contacts, coils and registers. `written` are the coils that were written, with
    their values and moments; `asked` is called with each function before it is answered."""
    allow_reuse_address = daemon_threads = True

    def __init__(self, port=0) -> None:
        super().__init__(('127.0.0.1', port), Peer)
        self.contacts, self.coils, self.registers = [False] * 16, [False] * 16, [0] * 16
        self.holding, self.written, self.peers, self.both = {}, [], set(), False
        self.exception, self.exception_of_writes, self.is_silent, self.late = 0, 0, False, 0.0
        self.on_request = lambda function: None
        threading.Thread(target=self.serve_forever, args=(0.01,), daemon=True).start()

    def answer(self, pdu):
        function, at, value = struct.unpack('>BHH', pdu)
        self.on_request(function)
        exception = self.exception or (self.exception_of_writes if function == 5 else 0)
        if exception:
            return bytes([function | 0x80, exception])
        if function in (1, 2):
            bits = (self.coils if function == 1 else self.contacts)[at:at + value]
            octets = (value + 7) // 8
            packed = sum(bit << n for n, bit in enumerate(bits)).to_bytes(octets, 'little')
            return bytes([function, octets]) + packed
        if function in (3, 4):
            words = [self.holding.get(at, 0)] if function == 3 else self.registers[at:at + value]
            return struct.pack(f'>BB{value}H', function, 2 * value, *words)
        if function == 6:
            self.holding[at] = value
        else:
            self.put_coil(at, value == 0xFF00)
        return pdu

    def put_coil(self, coil, value):
        self.coils[coil] = value
        self.written.append((coil, value, time.monotonic()))
        self.both |= self.coils[0] and self.coils[1]

    def end_connections(self):
        """Ends all connections."""
        for peer in list(self.peers):
            with contextlib.suppress(OSError):
                peer.shutdown(socket.SHUT_RDWR)

    def stop(self):
        """Ends as if it had lost its power."""
        self.shutdown()
        self.server_close()
        self.end_connections()
        self.coils = [False] * 16


class Peer(socketserver.StreamRequestHandler):
    disable_nagle_algorithm = True

    def handle(self):
        self.server.peers.add(self.connection)
        with contextlib.suppress(OSError, struct.error):
            while head := self.rfile.read(7):
                transaction, _, length, unit = struct.unpack('>HHHB', head)
                self.converse(transaction, unit, self.rfile.read(length - 1))
        self.server.peers.discard(self.connection)

    def converse(self, transaction, unit, pdu):
        server = self.server
        if server.late and pdu[0] == 5 and pdu[3]:  # (a coil is to be switched on)
            threading.Timer(server.late, server.put_coil, (pdu[2], True)).start()
            server.late = 0.0
            return
        answer = server.answer(pdu)
        while server.is_silent:
            time.sleep(0.01)
        self.wfile.write(struct.pack('>HHHB', transaction, 0, 1 + len(answer), unit) + answer)


class FakeServer:
    """The process port of a server that supervises. `told` are the lines of the driver without
    their times, `moments` these times; both of the last connection. It ends a connection on which a
    time goes back, and keeps that line and the one before it in `went_back`."""

    def __init__(self, named='E1 2 b') -> None:
        self.socket = socket.create_server(('127.0.0.1', 0))
        self.port, self.named = self.socket.getsockname()[1], named
        self.told, self.moments, self.count = [], [], 0
        self.last_line, self.went_back = '', []
        self.is_frozen = self.is_over = False
        self.connection, self.lock = None, threading.Lock()
        threading.Thread(target=self.serve, daemon=True).start()

    def now(self):
        return 1_000_000 + time.monotonic_ns() // 1_000_000

    def serve(self):
        with contextlib.suppress(OSError):
            while not self.is_over:
                connection, _ = self.socket.accept()
                self.told, self.moments, self.last_line = [], [], ''
                connection.sendall(f'{self.now()} process {MS} {self.named}\n'.encode())
                with self.lock:
                    self.connection, self.count = connection, self.count + 1
                threading.Thread(target=self.live, args=(connection,), daemon=True).start()
                with contextlib.suppress(OSError), connection.makefile() as file:
                    for line in file:
                        self.take_line(line.rstrip('\n'))
                        if self.went_back:
                            break
                self.drop(connection)

    def take_line(self, line):
        moment, _, rest = line.partition(' ')
        if self.last_line and int(moment) < int(self.last_line.split(' ')[0]):
            self.went_back.append((self.last_line, line))
        self.last_line = line
        if rest != 'alive':
            self.moments.append((int(moment), self.now()))
            self.told.append(rest)

    def live(self, connection):
        """Says that it lives, as long as the connection lasts."""
        with contextlib.suppress(OSError):
            while self.connection is connection:
                if not self.is_frozen:
                    connection.sendall(f'{self.now()} alive\n'.encode())
                time.sleep(MS / 8000)

    def send_lines(self, *lines, ahead=0):
        """Tells lines, stamped with its time and what is ahead of it."""
        stamp = self.now() + ahead
        self.connection.sendall(''.join(f'{stamp} {line}\n' for line in lines).encode())

    def send_releases(self, *lines):
        self.connection.sendall(''.join(line + '\n' for line in lines).encode())

    def drop(self, connection=None):
        """Ends the connection."""
        connection = connection or self.connection
        with contextlib.suppress(OSError):
            connection.shutdown(socket.SHUT_RDWR)
        with self.lock:
            if self.connection is connection:
                self.connection = None
        connection.close()

    def last(self, point):
        """The last value that was told of a point."""
        found = [line for line in self.told if line.startswith(point + ' ')]
        return found[-1].rpartition(' ')[2] if found else ''

    def end(self):
        self.is_over = True
        self.socket.close()
        if self.connection:
            self.drop()
