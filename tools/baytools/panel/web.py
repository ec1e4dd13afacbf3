"""The pages of a panel, and of what else shows bays: a page, its events, and with --operate its
controls."""
import html
import http.server
import json
import pathlib
import queue
import re
import secrets
import socket
import threading
import time
from collections.abc import Iterable

from baytools.common.moments import zone_text
from baytools.common.paths import DATA

from .broadcast import Publisher
from .expiry import Request, Turns, is_closed, moment, request_of
from .operating import answer

BEAT, LARGEST = 1, 4096  # seconds between two signs of life, and octets of a request
LOOK, AGAIN = 0.2, 1000  # seconds between two looks for a page's end; ms until it connects again
STREAMS = 4  # pages with events: a browser has six connections to a site, and requests need some
FULL = f'{STREAMS} pages of this site are open, and more are not served: close one of them'
FOREIGN = 'this page did not send that'
EARLIER = 'the panel was started anew since this page was loaded: load it again'
LIMIT = 10  # seconds that a connection may be silent, or not take what it is sent
PARTING = 2  # seconds for the end of those who read
TYPES = {'.css': 'text/css', '.js': 'text/javascript'}
POLICY = "default-src 'self'; img-src data:; base-uri 'none'; frame-ancestors 'none'"


class Site(http.server.ThreadingHTTPServer):
    """Serves a page with its files, and what is told as it changes, on 127.0.0.1 alone. A request
    that names another host is refused, and one that controls needs the token of a page, so no page
    of another site can operate a switch. `start` is another one each time, so that a page knows
    whether it is of an earlier start."""
    daemon_threads, operator = True, None
    request_queue_size = 64  # connections that wait; one too many is tried again after a second
    refusal = 'this page only shows'

    def __init__(self, port: int, watcher: Publisher, page: pathlib.Path,
                 files: Iterable[pathlib.Path]) -> None:
        super().__init__(('127.0.0.1', port), Handler)
        self.watcher, self.template = watcher, page
        self.files = {path.name: path for path in files}
        self.token, self.start = secrets.token_urlsafe(16), secrets.token_hex(8)
        self.streams, self.turns = threading.BoundedSemaphore(STREAMS), Turns()

    def hosts(self) -> set[str]:
        return {f'{name}:{self.server_address[1]}' for name in ('127.0.0.1', 'localhost')}

    def handle_error(self, request, client_address) -> None:
        """A page that went away is no error."""

    def parts(self) -> dict[str, str]:
        """What stands in the page in the place of each @NAME@, as text."""
        return {'ZONE': zone_text(time.time_ns() // 1_000_000), 'START': self.start}

    def drawn(self) -> dict[str, str]:
        """The same, as HTML."""
        return {name: html.escape(value, quote=True) for name, value in self.parts().items()}

    def page(self) -> str:
        found, text = self.drawn(), self.template.read_text(encoding='utf-8')
        return re.sub('@([A-Z]+)@', lambda it: found[it[1]], text)


class Pages(Site):
    """The pages of a panel."""
    refusal = 'the panel was started without --operate'

    def __init__(self, port, watcher, picture, operator=None) -> None:
        files = (DATA / name for name in ('page.css', 'shown.js', 'page.js'))
        super().__init__(port, watcher, DATA / 'page.html', files)
        self.picture, self.operator = picture, operator

    def parts(self) -> dict[str, str]:
        bay, tls = self.watcher.file['bay'], self.watcher.tls
        return {**super().parts(), 'TITLE': bay['domain'], 'TOKEN': self.token,
                'DEVICE': f'{bay["vendor"]} {bay["model"]}',
                'WHO': f'as {tls.subject_text()}, by TLS' if tls else '',
                'OPERATES': 'true' if self.operator else 'false'}

    def drawn(self) -> dict[str, str]:
        return {**super().drawn(), 'PICTURE': self.picture}


def serve(site: Site) -> None:
    """Serves pages until it is interrupted."""
    reading = threading.Thread(target=site.watcher.run, daemon=True)
    reading.start()
    print(f'http://127.0.0.1:{site.server_address[1]}/', flush=True)
    try:
        site.serve_forever()
    except KeyboardInterrupt:
        pass
    finally:
        site.watcher.stop()
        site.server_close()
        reading.join(PARTING)


class Handler(http.server.BaseHTTPRequestHandler):
    """One request."""
    protocol_version, timeout = 'HTTP/1.1', LIMIT

    def log_message(self, *words) -> None:
        """Requests are not printed."""

    def is_ours(self) -> bool:
        hosts, origin = self.server.hosts(), self.headers.get('Origin')
        return self.headers.get('Host') in hosts and (
            origin is None or origin in {f'http://{host}' for host in hosts})

    def send(self, status, kind, octets) -> None:
        self.send_response(status)
        self.send_header('Content-Type', f'{kind}; charset=utf-8')
        self.send_header('Content-Length', str(len(octets)))
        self.send_header('Cache-Control', 'no-store')
        self.send_header('Content-Security-Policy', POLICY)
        self.send_header('X-Content-Type-Options', 'nosniff')
        self.end_headers()
        self.wfile.write(octets)

    def refuse(self, status, told) -> None:
        self.close_connection = True
        self.send(status, 'text/plain', told.encode())

    def do_GET(self) -> None:
        name, _, page = self.path.partition('?')
        name = name.lstrip('/')
        if not self.is_ours():
            self.refuse(403, 'this is the page of another host')
        elif name == '':
            self.send(200, 'text/html', self.server.page().encode())
        elif name in self.server.files:
            path = self.server.files[name]
            self.send(200, TYPES[path.suffix], path.read_bytes())
        elif name == 'state':
            self.send(200, 'application/json', self.server.watcher.state_json().encode())
        elif name == 'events':
            self.stream(page)
        else:
            self.refuse(404, 'there is no such page')

    def stream(self, page) -> None:
        """Hands each state on as a server-sent event, until the page goes away: what it has
        selected is given up then."""
        self.close_connection = True
        self.send_response(200)
        self.send_header('Content-Type', 'text/event-stream')
        self.send_header('Cache-Control', 'no-store')
        self.end_headers()
        if not self.server.streams.acquire(blocking=False):
            return self.write_event('full', FULL)
        operator = self.server.operator
        try:
            if operator:
                operator.page_comes(page)
            self.write_event('start', self.server.start, f'retry: {AGAIN}\n')
            self.follow()
        except OSError:
            pass
        finally:
            self.server.streams.release()
            if operator:
                operator.page_gone(page)

    def follow(self) -> None:
        """Writes the states, and between them signs of life, until the page goes."""
        watcher = self.server.watcher
        states, beat = watcher.subscribe(), 0.0
        try:
            while not watcher.is_over.is_set() and not is_closed(self.connection):
                try:
                    state = states.get(timeout=LOOK)
                except queue.Empty:
                    state = ''
                if state or time.monotonic() > beat:
                    life = {'moment': moment(), 'silent': watcher.silent_since()}
                    self.write_event('life', json.dumps(life))
                    beat = time.monotonic() + BEAT
                if state:
                    self.write_event('', state)
        finally:
            watcher.unsubscribe(states)

    def write_event(self, kind: str, data: str, before: str = '') -> None:
        """Writes an event, whose kind is empty for a state."""
        named = f'event: {kind}\n' if kind else ''
        self.wfile.write(f'{before}{named}data: {data}\n\n'.encode())
        self.wfile.flush()

    def do_POST(self) -> None:
        size = self.headers.get('Content-Length', '')
        if not re.fullmatch('[0-9]{1,5}', size) or int(size) > LARGEST:
            return self.refuse(400, 'the request is too long')
        body, token = self.rfile.read(int(size)), self.headers.get('X-Panel')
        if not self.is_ours() or token is None:
            return self.refuse(403, FOREIGN)
        if not secrets.compare_digest(token.encode(), self.server.token.encode()):
            return self.refuse(403, EARLIER)
        if not self.server.operator:
            return self.refuse(403, self.server.refusal)
        connection: socket.socket = self.connection
        try:
            request = request_of(self.path.lstrip('/'), json.loads(body),
                                 lambda: is_closed(connection))
        except (ValueError, LookupError, TypeError, AttributeError, RecursionError):
            return self.refuse(400, 'the request can\'t be read')
        self.send(200, 'application/json', json.dumps(self.acted(request)).encode())

    def acted(self, request: Request) -> dict:
        """What became of a request. That a page gives up is noted before anything may wait."""
        operator, turns = self.server.operator, self.server.turns
        if not turns.takes(request.page, request.number):
            return answer(False, 'it was given up')
        if request.verb == 'leave':
            operator.give_up(request.page)
            return answer(True, 'given up')
        return operator.act(request.verb, request.switch, request.way, request.page,
                            lambda: request.late(turns))
