"""The page of a panel in a browser, as a person uses it: what keys and clicks come to, and what is
read where something is lost. Each check has the name of the wrong behaviour that it refuses. The
commands of the server are what counts: it prints each."""
import contextlib
import http.client
import json
import re
import signal
import sys
import time
from collections.abc import Callable, Iterator

from baytools.common.paths import TOOLS
from devtools.served import PATIENCE, Running, Server, free_port

from .chromium import SHIFT, Broken, Browser, Page, program
from .panels import SERVED, gear

BAY, LOGIC = SERVED / 'bay.toml', SERVED / 'logic.il'
DIAGRAMS = SERVED.parent / '07_diagrams'
QA1, NARROW = 'g[data-switch="QA1"]', 400
SETTLED = 0.9  # seconds in which a command that was to come has come
CLOSED = f'document.querySelector(\'{QA1}\').classList.contains("closed")'
OPEN = CLOSED.replace('closed', 'open')
CONFIRMS = '!byId("button-confirm").hidden && !byId("button-confirm").disabled'
LATE = 'byId("dialog-told").textContent.includes("no answer within")'
OFFERS = '!byId("button-open").hidden && !byId("button-open").disabled'
# The bay's own switches that lie outside of the part of a picture that is seen, and those whose box
# lies over a part of another switch.
UNSEEN = '''(() => {
  const frame = document.querySelector('#picture').getBoundingClientRect();
  return Array.from(document.querySelectorAll('#picture g[data-switch]')).filter((one) => {
    const at = Array.from(one.querySelectorAll('.id, .contact, .fixed'),
      (it) => it.getBoundingClientRect());
    return at.some((it) => it.left < frame.left || it.right > frame.right);
  }).map((one) => one.dataset.switch).join(', ');
})()'''
COVERED = '''(() => {
  const found = [];
  const drawn = Array.from(document.querySelectorAll('#picture g[data-switch], #picture g.other'));
  for (const one of drawn) {
    const box = one.querySelector('.hit').getBoundingClientRect();
    for (const other of drawn.filter((it) => it !== one && one.dataset.switch)) {
      for (const part of other.querySelectorAll('text, line, path')) {
        const at = part.getBoundingClientRect();
        if (at.height && at.left < box.right - 1 && at.right > box.left + 1
          && at.top < box.bottom - 1 && at.bottom > box.top + 1) {
          found.push(`${one.dataset.switch} over ${other.querySelector('.id').textContent}`);
        }
      }
    }
  }
  return Array.from(new Set(found)).join(', ');
})()'''


class Bench:
    """A served bay with its switchgear, its panel and a browser."""

    def __init__(self, checks, browser: Browser, room: contextlib.ExitStack) -> None:
        self.checks, self.browser, self.room = checks, browser, room
        self.server = room.enter_context(Server(checks.bayctl, BAY, LOGIC, with_process=True))
        self.server.client().close()
        self.gear = room.enter_context(gear(self.server))
        self.port = free_port()
        self.panel = self.started()

    def started(self) -> Running:
        found = self.room.enter_context(Running(
            sys.executable, '-B', TOOLS / 'panel', '--bay', BAY, self.server.port, '--http',
            self.port, '--operate'))
        found.waits_for('/\n')
        return found

    def page(self) -> Page:
        found = self.browser.page(f'http://127.0.0.1:{self.port}/')
        found.until(CLOSED)
        return found

    def state(self) -> dict:
        connection = http.client.HTTPConnection('127.0.0.1', self.port, timeout=PATIENCE)
        connection.request('GET', '/state')
        found = json.loads(connection.getresponse().read())
        connection.close()
        return found

    def commands(self) -> int:
        return len(re.findall(r'(?m)^\d+ command ', self.server.printed()))

    def is_selected(self) -> bool:
        found = self.state()
        return bool(found['control'] or any(it['selected'] for it in found['switches']))

    def holds(self, name: str, page: Page, commands: int = 0) -> None:
        """Nothing more than this was commanded, a while after it was done."""
        time.sleep(SETTLED)
        self.checks.holds(name, self.commands() == commands and not self.is_selected(),
                          f'{self.commands()} commands; {page.text("dialog")}; '
                          f'{[it["told"] for it in self.state()["events"]]}')

    def selected(self, page: Page) -> None:
        """The opening of QA1 is selected by a page, and can be confirmed."""
        page.click(QA1)
        self.selects(page, lambda: page.click('#button-open'))

    @staticmethod
    def selects(page: Page, act: Callable[[], object]) -> None:
        """Selects by clicks or keys, once more where a busy machine gave no answer in time."""
        for _ in range(5):
            page.until(OFFERS)
            act()
            page.until(f'({CONFIRMS}) || ({LATE})')
            if page.value(CONFIRMS):
                return time.sleep(SETTLED)
        raise Broken(page.text('dialog'))

    @contextlib.contextmanager
    def stopped(self, which: Running, seconds: float = 0) -> Iterator[None]:
        """A program stands still, for as long as a block takes and some seconds."""
        which.run.send_signal(signal.SIGSTOP)
        try:
            yield
            time.sleep(seconds)
        finally:
            which.run.send_signal(signal.SIGCONT)


def hold_keys(bench: Bench, page: Page) -> None:
    """Enter and the space bar are held on a switch and on Open, with answers at once and late."""
    for key in ('Enter', ' '):
        for start in (QA1, '#button-open'):
            page.click(QA1)
            page.until(OFFERS)
            if start == QA1:
                page.key('Escape')
            page.value(f'document.querySelector(\'{start}\').focus()')
            page.key(key, repeats=25, every=0.03)
            time.sleep(0.2)
            page.key('Escape')
    bench.holds('a key that is held operates', page)


def twice(bench: Bench, page: Page) -> None:
    """A double click on Open, at its upper and lower part, fast and slow."""
    for share in (0.2, 0.8):
        for apart in (0.05, 0.15, 0.3, 0.45):
            page.click(QA1)
            page.until(OFFERS)
            x, y = page.middle('#button-open')
            high = page.value('byId("button-open").offsetHeight')
            page.click_at(x, y + (share - 0.5) * high, 2, apart)
            page.until(CONFIRMS)
            page.click('#button-cancel')
            page.until('byId("button-confirm").hidden')
            page.key('Escape')
    page.click(QA1, 2, 0.1)
    time.sleep(0.3)
    page.key('Escape')
    bench.holds('a double click operates or selects', page)


def slow(bench: Bench, page: Page) -> None:
    """The server is slow, and the operator gives up meanwhile: an operate, and a select."""
    bench.selected(page)
    with bench.stopped(bench.server, 0.4):
        page.click('#button-confirm')
        time.sleep(0.4)
        page.key('Escape')
    bench.holds('an operate goes out that Escape gave up', page)
    page.click(QA1)
    page.until(OFFERS)
    with bench.stopped(bench.server, 0.4):
        page.click('#button-open')
        time.sleep(0.4)
        page.click('#button-back')
    bench.holds('a selection stays that Back gave up', page)
    bench.selected(page)
    with bench.stopped(bench.server, 0.4):
        page.click('#button-confirm')
        page.until('byId("dialog-told").textContent.includes("no answer within 2 s")')
    bench.holds('an operate of two seconds ago goes out', page)
    page.key('Escape')


def stood(bench: Bench, page: Page) -> None:
    """The page stands still, and goes on behind a click on Confirm."""
    bench.selected(page)
    page.click_while_blocked('#button-confirm', 2.5)
    page.until('byId("dialog-told").textContent.includes("stood still")')
    page.key('Escape')
    bench.holds('a click on a page that stood still operates', page)


def panel_stopped(bench: Bench, page: Page) -> None:
    """The panel stands still, for a short and for a long while: Confirm, Back, the page goes."""
    bench.selected(page)
    with bench.stopped(bench.panel, 0.3):
        page.click('#button-confirm')
        time.sleep(0.3)
        page.click('#button-back')
    bench.holds('a panel that stood still operates what was given up', page)
    bench.selected(page)
    with bench.stopped(bench.panel, 2):
        page.click('#button-confirm')
        time.sleep(0.3)
        page.click('#button-back')
        page.closes()
    time.sleep(SETTLED)
    bench.checks.holds('a panel that stood still operates for a page that is gone',
                       bench.commands() == 0 and not bench.is_selected(),
                       str([it['told'] for it in bench.state()['events']]))


def six(bench: Bench, first: Page) -> None:
    """Six pages in one browser: four show and operate, and two say why they don't."""
    pages = [first, *(bench.page() for _ in range(3))]
    more = [bench.browser.page(f'http://127.0.0.1:{bench.port}/') for _ in range(2)]
    for one in more:
        Page.comes(lambda one=one: 'not served' in one.text('#connection'))
    bench.checks.holds('a page that gets no events is blank', all(
        'not served' in it.text('#connection')
        and '4 pages of this site are open' in it.text('#trouble') for it in more),
                       str([it.text('header') + it.text('#trouble') for it in more]))
    bench.selected(pages[0])
    pages[0].click('#button-cancel')
    is_told = Page.comes(lambda: 'cancel QA1: done' in pages[0].text('#dialog-told')
                         or pages[0].value(LATE))
    bench.checks.holds('six pages keep each other from asking', is_told,
                       pages[0].text('dialog'))
    pages[3].closes()
    served = Page.comes(lambda: any(it.value(CLOSED) for it in more))
    bench.checks.holds('a page that was one too many stays so', served, more[0].text())
    for one in (*pages[1:3], *more):
        one.closes()
    first.key('Escape')


def deliberate(bench: Bench, page: Page) -> None:
    """Enter, Tab, Enter, Tab, Enter opens the breaker, and the page tells it."""
    told: list[object] = []

    def enters() -> None:
        told[:] = [page.value('document.activeElement.textContent')]
        page.key('Tab')
        told.append(page.value('document.activeElement.textContent'))
        page.key('Enter')

    page.value(f'document.querySelector(\'{QA1}\').focus()')
    page.key('Enter')
    bench.selects(page, enters)
    told.append(page.value('document.activeElement.textContent'))
    page.key('Tab')
    told.append(page.value('document.activeElement.textContent'))
    page.key('Enter')
    is_told = Page.comes(lambda: 'has ended: done' in page.text('#dialog-told'))
    bench.checks.holds('keys alone operate nothing', is_told and bench.commands() == 1,
                       f'{told}: {page.text("dialog")}')
    bench.checks.holds('the keyboard is on a button that operates', told == [
        'Back', 'Open QA1', 'Give up: open QA1', 'Confirm: open QA1'], str(told))
    page.key('Tab', more=SHIFT)
    page.key('Escape')


def restart_panel(bench: Bench, page: Page) -> None:
    """The panel is started anew, with a page open."""
    bench.panel.kill()
    is_told = Page.comes(lambda: 'panel gone' in page.text('#connection'))
    bench.checks.holds('a page without a panel looks as if it had one', is_told and not page.value(
        'document.querySelector("table").textContent.includes("may be")'), page.text())
    bench.panel = bench.started()
    is_told = Page.comes(lambda: 'started anew' in page.text('#anew'))
    page.until(f'{OPEN} || {CLOSED}')
    way = 'close' if page.value(OPEN) else 'open'
    page.click(QA1)
    page.until(f'!byId("button-{way}").hidden')
    page.click(f'#button-{way}')
    is_done = Page.comes(lambda: page.value(f'({CONFIRMS}) || ({LATE})'))
    bench.checks.holds('a page of an earlier start stays', is_told and is_done, page.text())
    page.key('Escape')


def process_lost(bench: Bench, page: Page) -> None:
    """The process is gone, with a dialog open."""
    page.click(QA1)
    page.until('!byId("button-open").hidden || !byId("button-close").hidden')
    bench.gear.kill()
    is_told = Page.comes(lambda: 'process lost' in page.text('#connection'))
    bench.checks.holds('a lost process is not told', is_told and re.search(
        r'the process is lost, since 2\d\d\d-.* Every operate is refused',
        page.text('#trouble')) and page.value('byId("connection").className') == 'lost'
        and page.value('byId("trouble").className') == 'lost', page.text())
    bench.checks.holds('something is offered without a process', page.value(
        'byId("button-open").hidden && byId("button-close").hidden') and not re.search(
            'may (now )?be ', page.text('table') + page.text('dialog')), page.text())


def server_lost(bench: Bench, page: Page) -> None:
    """The server stands still, and then it is gone; a dialog is open."""
    bench.gear = bench.room.enter_context(gear(bench.server))
    page.until(CLOSED)
    with bench.stopped(bench.server):
        is_told = Page.comes(lambda: 'server lost' in page.text('#connection'))
        bench.checks.holds('a server that hangs is not told', is_told and re.search(
            r'The server (has not answered|is lost) since 2\d\d\d-', page.text('#trouble')),
                           page.text())
    is_over = Page.comes(lambda: 'connected' in page.text('#connection'))
    bench.checks.holds('a server that goes on is told as lost', is_over, page.text())
    bench.server.kill()
    is_told = Page.comes(lambda: 'server lost' in page.text('#connection'))
    bench.checks.holds('a lost server is not told', is_told and re.search(
        r'The server is lost since 2\d\d\d-', page.text('#trouble'))
        and page.value('byId("connection").className') == 'lost', page.text())
    bench.checks.holds('something is offered without a server', page.value(
        'byId("button-open").hidden && byId("button-close").hidden') and not re.search(
            'may (now )?be ', page.text('table') + page.text('dialog')), page.text())


def diagrams(checks, browser: Browser) -> None:
    """Each diagram of the examples, in a narrow window and in a wide one."""
    for bay in sorted(DIAGRAMS.glob('*/bay.toml')):
        words = ['--bay', bay, free_port(), '--http', '0', '--diagram',
                 bay.with_name('diagram.toml')]
        with Running(sys.executable, '-B', TOOLS / 'panel', *words) as running:
            found = re.search(r'http://\S+', running.waits_for('/\n'))
            page = browser.page(found[0], NARROW, 800)
            page.until('document.querySelector("#picture g[data-switch]")')
            unseen = page.value(UNSEEN)
            checks.holds('a narrow window shows other switches than the bay\'s own', not unseen,
                         f'{bay.parent.name}: {unseen}')
            page.size(1400, 1000)
            time.sleep(0.2)
            covered = page.value(COVERED)
            checks.holds('the box of a switch that is selected hides another', not covered,
                         f'{bay.parent.name}: {covered}')
            page.closes()


def run_part(bench: Bench, part: Callable[[Bench, Page], None], page: Page) -> None:
    """Does a part of it, which must not break off, as where a switch was operated."""
    try:
        part(bench, page)
    except Broken as error:
        bench.checks.holds(f'the page in a browser breaks off: {part.__name__}', False,
                           f'{bench.commands()} commands; {error}')


def browsing(checks) -> None:
    """All of it, where there is a Chromium."""
    if not program():
        checks.left_out('chromium is not installed', 'the page of a panel in a browser')
        return
    with Browser() as browser, contextlib.ExitStack() as room:
        diagrams(checks, browser)
        bench = Bench(checks, browser, room)
        for part in (hold_keys, twice, slow, stood, panel_stopped):
            page = bench.page()
            run_part(bench, part, page)
            with contextlib.suppress(Broken):
                page.closes()
        page = bench.page()
        for part in (six, deliberate, restart_panel, process_lost, server_lost):
            run_part(bench, part, page)
