"""A headless Chromium that a test drives as a person does, by keys and a mouse: the DevTools
protocol over two pipes."""
import base64
import fcntl
import json
import os
import pathlib
import selectors
import shutil
import signal
import subprocess
import sys
import tempfile
import time
from collections.abc import Callable

NAMES = ('chromium', 'chromium-browser', 'google-chrome')
PATIENCE, EVERY = 30, 0.05  # seconds until something must have happened, and between two looks
FIRST = 20  # the least number of a pipe in the child, before it becomes 3 or 4 there
BEGIN = ('import os, sys; os.dup2(int(sys.argv[1]), 3); os.dup2(int(sys.argv[2]), 4); '
         'os.execv(sys.argv[3], sys.argv[3:])')
WORDS = ('--headless=new', '--remote-debugging-pipe', '--no-first-run', '--no-sandbox',
         '--disable-gpu', '--disable-dev-shm-usage', '--disable-extensions',
         '--disable-background-networking', '--disable-component-update', '--no-proxy-server',
         '--hide-scrollbars', '--lang=en', 'about:blank')
KEYS = {'Enter': ('Enter', 13, '\r'), 'Tab': ('Tab', 9, ''), 'Escape': ('Escape', 27, ''),
        ' ': ('Space', 32, ' ')}  # code, virtual key code and text of a key
SHIFT = 8


def program() -> str:
    """The path of a Chromium, or nothing."""
    return next((path for path in map(shutil.which, NAMES) if path), '')


class Broken(Exception):
    """The browser refuses something, or has ended."""


class Browser:
    """A browser with a profile of its own, which ends with the `with` block."""

    def __init__(self) -> None:
        self.folder = tempfile.TemporaryDirectory(ignore_cleanup_errors=True)
        (theirs_in, ours_out), (ours_in, theirs_out) = os.pipe(), os.pipe()
        high = [fcntl.fcntl(one, fcntl.F_DUPFD, FIRST) for one in (theirs_in, theirs_out)]
        os.close(theirs_in)
        os.close(theirs_out)
        words = [program(), f'--user-data-dir={self.folder.name}', *WORDS]
        self.run = subprocess.Popen(
            [sys.executable, '-c', BEGIN, *map(str, high), *words], pass_fds=high,
            stdin=subprocess.DEVNULL, stdout=subprocess.DEVNULL, stderr=subprocess.DEVNULL,
            start_new_session=True)
        for one in high:
            os.close(one)
        self.ours_in, self.ours_out, self.rest, self.count = ours_in, ours_out, b'', 0
        self.ready = selectors.DefaultSelector()
        self.ready.register(ours_in, selectors.EVENT_READ)

    def __enter__(self) -> 'Browser':
        return self

    def __exit__(self, *error) -> None:
        os.killpg(self.run.pid, signal.SIGKILL)
        self.run.wait()
        self.ready.close()
        os.close(self.ours_in)
        os.close(self.ours_out)
        self.folder.cleanup()

    def sends(self, method: str, session: str = '', **more) -> int:
        """Sends a command, and gives its number."""
        self.count += 1
        whole = {'id': self.count, 'method': method, 'params': more}
        whole |= {'sessionId': session} if session else {}
        os.write(self.ours_out, json.dumps(whole).encode() + b'\0')
        return self.count

    def call(self, method: str, session: str = '', **more) -> dict:
        """What the browser answers to a command."""
        number, end = self.sends(method, session, **more), time.monotonic() + PATIENCE
        while True:
            found = self.next_message(end)
            if found.get('id') == number:
                if 'error' in found:
                    raise Broken(f'{method}: {found["error"]}')
                return found['result']

    def next_message(self, end: float) -> dict:
        """The next answer or event."""
        while b'\0' not in self.rest:
            if not self.ready.select(max(end - time.monotonic(), 0)):
                raise Broken('the browser does not answer')
            piece = os.read(self.ours_in, 1 << 20)
            if not piece:
                raise Broken('the browser has ended')
            self.rest += piece
        line, _, self.rest = self.rest.partition(b'\0')
        return json.loads(line)

    def page(self, address: str, width: int = 1280, height: int = 900) -> 'Page':
        """A page of this address."""
        return Page(self, address, width, height)


class Page:
    """A page that is open in a browser. A selector is that of CSS."""

    def __init__(self, browser: Browser, address: str, width: int, height: int) -> None:
        self.browser = browser
        self.target = browser.call('Target.createTarget', url='about:blank')['targetId']
        self.session = browser.call('Target.attachToTarget', targetId=self.target,
                                    flatten=True)['sessionId']
        self.call('Page.enable')
        self.call('Emulation.setFocusEmulationEnabled', enabled=True)
        self.size(width, height)
        self.open_address(address)

    def call(self, method: str, **more) -> dict:
        return self.browser.call(method, self.session, **more)

    def open_address(self, address: str) -> None:
        """Opens an address, and waits for its scripts."""
        self.call('Page.navigate', url=address)
        self.until('document.readyState === "complete" && location.href !== "about:blank"')

    def size(self, width: int, height: int) -> None:
        self.call('Emulation.setDeviceMetricsOverride', width=width, height=height,
                  deviceScaleFactor=1, mobile=False)

    def value(self, expression: str) -> object:
        """What an expression of the page's script comes to."""
        found = self.call('Runtime.evaluate', expression=expression, returnByValue=True,
                          awaitPromise=True)
        if 'exceptionDetails' in found:
            raise Broken(f'{expression}: {found["exceptionDetails"]}')
        return found['result'].get('value')

    def until(self, expression: str, seconds: float = PATIENCE) -> None:
        """Waits until an expression is so."""
        if not self.comes(lambda: self.value(f'Boolean({expression})'), seconds):
            raise Broken(f'not within {seconds:g} s: {expression}; the page says: {self.text()}')

    @staticmethod
    def comes(test: Callable, seconds: float = PATIENCE) -> object:
        """What comes to be so within some seconds, or nothing."""
        end = time.monotonic() + seconds
        while not (found := test()) and time.monotonic() < end:
            time.sleep(EVERY)
        return found

    def text(self, selector: str = 'body') -> str:
        """What stands in a part of the page as a person sees it."""
        return str(self.value(f'document.querySelector({json.dumps(selector)})?.innerText ?? ""'))

    def key(self, name: str, repeats: int = 0, more: int = 0, every: float = 0) -> None:
        """Presses a key; where it is held, it repeats so many times before it is let go."""
        code, number, text = KEYS[name]
        event = {'key': name, 'code': code, 'windowsVirtualKeyCode': number, 'modifiers': more}
        kind = 'keyDown' if text else 'rawKeyDown'
        for at in range(repeats + 1):
            self.call('Input.dispatchKeyEvent', type=kind, text=text, autoRepeat=at > 0, **event)
            time.sleep(every if at < repeats else 0)
        self.call('Input.dispatchKeyEvent', type='keyUp', **event)

    def middle(self, selector: str) -> list[float]:
        """Where the middle of an element is in the window."""
        found = self.value('(() => {const it = document.querySelector(' + json.dumps(selector)
                           + '); if (!it) return null; it.scrollIntoView({block: "nearest"});'
                           'const at = it.getBoundingClientRect();'
                           'return [at.x + at.width / 2, at.y + at.height / 2]})()')
        if not isinstance(found, list):
            raise Broken(f'there is no {selector}')
        return found

    def click(self, selector: str, times: int = 1, apart: float = 0) -> None:
        """Clicks on the middle of an element, once or twice at the same place."""
        self.click_at(*self.middle(selector), times, apart)

    def click_at(self, x: float, y: float, times: int = 1, apart: float = 0,
                 asks: Callable | None = None) -> None:
        for count in range(1, times + 1):
            for kind in ('mousePressed', 'mouseReleased'):
                (asks or self.call)('Input.dispatchMouseEvent', type=kind, x=x, y=y, button='left',
                                    clickCount=count)
            time.sleep(apart if count < times else 0)

    def click_while_blocked(self, selector: str, seconds: float) -> None:
        """Clicks on an element while the page's script stands still for some seconds."""
        x, y = self.middle(selector)
        self.value('setTimeout(() => {const end = performance.now() + ' + str(seconds * 1000)
                   + '; while (performance.now() < end);}, 50)')
        time.sleep(0.2)

        def sends(method: str, **more) -> None:
            self.browser.sends(method, self.session, **more)

        self.click_at(x, y, asks=sends)
        time.sleep(seconds)

    def picture(self, path: pathlib.Path) -> None:
        """Writes what the window shows as a PNG file."""
        path.write_bytes(base64.b64decode(self.call('Page.captureScreenshot')['data']))

    def closes(self) -> None:
        self.browser.call('Target.closeTarget', targetId=self.target)
