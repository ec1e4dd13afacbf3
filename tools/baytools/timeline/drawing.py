"""What became of a scenario or of a captured session, drawn over time."""
from baytools.bay.names import UNIT
from baytools.common import moments
from baytools.common.positions import POSITIONS
from baytools.common.svg import COMMAND, FAINT, FREE, GRID, INK, SMALL, WARN, Picture, room
from baytools.common.texts import quantity
from baytools.report.history import PROCESS_UNIT

UNKNOWN = 'not yet reported'

WIDTH, LEFT, RIGHT = 1200, 220, 44
BAND, STRIP, LISTED, ROWS = 22, 12, 24, 12
READS = '#dbe7f3'  # of reads that repeat
FILLS = {UNKNOWN: '#ffffff', 'intermediate': 'url(#moving)', 'open': '#ffffff', 'closed': '#1f4e8c',
         'bad': 'url(#bad)'}
PATTERN = ('<pattern id="{}" width="8" height="8" patternUnits="userSpaceOnUse" '
           'patternTransform="rotate({})"><rect width="8" height="8" fill="{}"/>'
           '<rect width="3" height="8" fill="{}"/></pattern>\n')
PATTERNS = ('<defs>\n' + PATTERN.format('moving', 45, '#fff4d6', '#f0c24b')
            + PATTERN.format('bad', -45, '#fde7e5', '#d9534a') + '</defs>\n')

# The steps of an axis, in milliseconds: 1, 2 and 5 of each power of ten, and round ones of a clock.
STEPS = [digit * 10 ** power for power in range(4) for digit in (1, 2, 5)] + [
    step * 1000 for step in (10, 15, 30, 60, 120, 300, 600, 1200, 1800, 3600, 7200, 14_400, 21_600,
                             43_200)] + [days * 86_400_000 for days in (1, 2, 5, 10, 30, 100, 365)]


class Scale:
    """From moments to places. Where a moment is one of our days, times of day are shown, and the
    picture begins with the first of these."""

    def __init__(self, found) -> None:
        clocks = [moment for moment in found if moments.is_clock(moment)]
        self.is_clock, self.zero = bool(clocks), 0
        self.start = min(clocks or found, default=0)
        span = max(max(found, default=0) - self.start, 1)
        self.end = self.start + span * 1.04

    def x(self, moment) -> float:
        inside = min(max(moment, self.start), self.end)
        return LEFT + (WIDTH - LEFT - RIGHT) * (inside - self.start) / (self.end - self.start)

    def ticks(self) -> list:
        """The moments that the axis names: a round step, about twelve of them."""
        length = self.end - self.start
        step = next((step for step in STEPS if length / step <= 14), length)
        first = -(-self.start // step) * step
        return [first + n * step for n in range(15) if first + n * step <= self.end]

    def name(self, moment) -> str:
        if self.is_clock:
            clock = moments.clock_text(int(moment))
            return clock.removesuffix('.000')
        seconds, rest = divmod(moment, 1000)
        return f'{seconds}.{rest:03}'.rstrip('0').rstrip('.') + ' s'


class Timeline(Picture):
    """A picture whose places across are moments."""

    def __init__(self, scale) -> None:
        super().__init__()
        self.scale = scale

    def lane(self, label, note, middle) -> None:
        """The name of a lane, and a note behind it where there is room for both."""
        wide, space = room(label, 1.1), LEFT - 30 - room(note)
        if space < SMALL * wide:
            note, space = '', LEFT - 20
        self.text(12, middle + 4, label, round(min(13, space / wide), 1), weight='bold')
        self.text(LEFT - 10, middle + 4, note, anchor='end', fill=FAINT)


def draw_axis(picture) -> None:
    """The names of the moments, and below them the day where another one begins."""
    scale = picture.scale
    for moment in scale.ticks():
        picture.text(scale.x(moment), picture.y + 12, scale.name(moment), anchor='middle',
                     fill=FAINT)
    if scale.is_clock:
        days = [f'{moments.date_of(int(moment)):%Y-%m-%d}' for moment in scale.ticks()]
        picture.text(12, picture.y + 12, moments.day_text(int(scale.start)), fill=FAINT)
        for before, day, moment in zip(days, days[1:], scale.ticks()[1:]):
            if day != before:
                picture.text(scale.x(moment), picture.y + 26, day, anchor='middle', fill=FAINT)
        picture.y += 14 if len(set(days)) > 1 else 0
    picture.y += 22


def rows_of(spans) -> list[int]:
    """A row for each place and width, such that no two in a row meet."""
    ends, rows = [], []
    for place, width in spans:
        free = [row for row, end in enumerate(ends) if end <= place]
        row = free[0] if free else len(ends)
        if row == len(ends):
            ends.append(0)
        ends[row] = place + width
        rows.append(row)
    return rows


def draw_events(picture, history) -> None:
    """The scans, and the refused events with their numbers in the list below."""
    scale, middle = picture.scale, picture.y + 8
    if not history.report:
        return
    picture.lane('Scans', f'{len(history.scans)}', middle)
    for moment in history.scans:
        x = scale.x(moment)
        picture.path([(x - 4, middle - 5), (x + 4, middle - 5), (x, middle + 5),
                      (x - 4, middle - 5)], FAINT, 1, '#d0d0d0',
                     f'scan at {moments.moment_text(moment)}')
    picture.y += 24
    draw_losses(picture, history.losses)
    if not history.events:
        return
    order = sorted(history.events, key=lambda n: history.refusals[n][0])
    rows = rows_of([(scale.x(history.refusals[n][0]), 34) for n in order])
    picture.lane('Refused', f'{len(order)}', picture.y + 8)
    for n, row in zip(order, rows):
        draw_cross(picture, scale.x(history.refusals[n][0]), picture.y + 8 + 16 * row, n,
                   history.refusals[n][1])
    picture.y += 16 * (max(rows) + 1) + 8


def draw_losses(picture, losses) -> None:
    """When the process was lost."""
    if not losses:
        return
    picture.lane('Process lost', f'{len(losses)}', picture.y + 8)
    for moment in losses:
        draw_saltire(picture, picture.scale.x(moment), picture.y + 8,
                     f'the process is lost at {moments.moment_text(moment)}: all is bad')
    picture.y += 24


def draw_cross(picture, x, y, number, tip) -> None:
    """A refusal with its number."""
    draw_saltire(picture, x, y, tip)
    picture.text(x + 8, y + 4, str(number + 1), fill=WARN, weight='bold')


def draw_saltire(picture, x, y, tip) -> None:
    for slope in (-1, 1):
        picture.path([(x - 4, y - 4 * slope), (x + 4, y + 4 * slope)], WARN, 2, tip=tip)


def draw_client(picture, history, client) -> None:
    """When a client was connected, a tick where it was in talk with the server, a bar for reads
    that repeat, and its controls, granted or refused."""
    scale, line, label = picture.scale, picture.y + 8, f'Client {client.name()}'
    picture.lane(label, quantity(len(client.marks), 'control'), line)
    for start, end, value in client.open.spells(scale.start, scale.end):
        if value:
            picture.path([(scale.x(start), line), (scale.x(end), line)], INK, 1.5,
                         tip=f'{label} is connected from {moments.moment_text(start)}')
    for moment, words in client.ticks().items():
        tip = f'{moments.moment_text(moment)}: {label} ' + '; '.join(word.strip() for word in words)
        picture.path([(scale.x(moment), line - 4), (scale.x(moment), line + 4)], INK, 1.5, tip=tip)
    draw_repeats(picture, label, list(client.bars()))
    line = picture.y + 8
    rows = rows_of([span_of(scale, mark) for mark in client.marks])
    for mark, row in zip(client.marks, rows):
        draw_mark(picture, history, mark, line + 16 + 16 * min(row, ROWS))
    picture.y += 26 + 16 * min(max(rows, default=-1) + 1, ROWS + 1)


def draw_repeats(picture, label, repeats) -> None:
    """Reads that repeat, each a bar with its count below the line of the client."""
    spans = [repeat_span(picture.scale, it) for it in repeats]
    rows = rows_of([(start, end - start + 8) for start, end, _ in spans])
    for repeat, (_, _, text_x), row in zip(repeats, spans, rows):
        x, far = picture.scale.x(repeat.start), picture.scale.x(repeat.end)
        y = picture.y + 18 + 16 * min(row, ROWS)
        words = '; '.join(word.strip() for word in [*repeat.asked, *repeat.answered])
        picture.box(x, y, far - x, 10, READS, FAINT,
                    f'{moments.moment_text(repeat.start)} to {moments.moment_text(repeat.end)}: '
                    f'{label}, {repeat.count:,} times, the last: {words}')
        picture.text(text_x, y + 9, repeat.label(), fill=FAINT)
    picture.y += 16 * min(max(rows, default=-1) + 1, ROWS + 1)


def repeat_span(scale, repeat) -> tuple:
    """Where a bar or its words begin and end, and where the words begin: in the bar where it has
    the room, else behind it, or before it at the edge."""
    x, far, wide = scale.x(repeat.start), scale.x(repeat.end), room(repeat.label())
    if wide + 8 <= far - x:
        return x, far, x + 4
    if far + 6 + wide <= WIDTH - 4:
        return x, far + 6 + wide, far + 6
    return x - 6 - wide, far, x - 6 - wide


def span_of(scale, mark) -> tuple:
    """Where a mark and its label begin, and how wide they are; a label that would pass the edge
    stands before its mark."""
    width = room(mark.label) + 14 + (0 if mark.number is None
                                         else room(str(mark.number + 1)) + 8)
    x = scale.x(mark.moment)
    return (x - width if x + width > WIDTH - 4 else x), width + 8


def draw_mark(picture, history, mark, y) -> None:
    """A control of a client."""
    x, (start, _) = picture.scale.x(mark.moment), span_of(picture.scale, mark)
    behind = x + 8
    if mark.number is None:
        picture.path([(x, y - 4), (x + 4, y), (x, y + 4), (x - 4, y), (x, y - 4)], FREE, 1, FREE,
                     f'{mark.label} at {moments.moment_text(mark.moment)}')
    else:
        draw_cross(picture, x, y, mark.number, history.refusals[mark.number][1])
        behind += room(str(mark.number + 1)) + 6
    before = start < x
    picture.text(x - 8 if before else behind, y + 4, mark.label,
                 anchor='end' if before else 'start', fill=INK if mark.number is None else WARN)


def draw_commands(picture, label, commands) -> None:
    """The commands to a switch, as flags above its band."""
    for moment, way in commands:
        x, y = picture.scale.x(moment), picture.y
        picture.path([(x, y + 14 + BAND), (x, y + 2), (x + 8, y + 6), (x, y + 10)], COMMAND, 1.5,
                     COMMAND, f'command: {way} {label} at {moments.moment_text(moment)}')
        picture.text(x + 11, y + 11, way, fill=COMMAND, weight='bold')
    picture.y += 14 if commands else 0


def draw_switch(picture, history, key) -> None:
    """The position of a switch, and under it what its interlocking allowed after each scan."""
    scale, track = picture.scale, history.switches[key]
    draw_commands(picture, track.label, history.commands[key])
    picture.lane(track.label, track.note, picture.y + BAND / 2)
    for start, end, value in track.spells(scale.start, scale.end, UNKNOWN):
        draw_position(picture, track.label, start, end, value)
    picture.y += BAND + 3
    for releases in (history.opens[key], history.closes[key]):
        picture.text(LEFT - 10, picture.y + STRIP - 1, releases.label, anchor='end',
                     fill=FAINT)
        for start, end, value in releases.spells(scale.start, scale.end):
            x, far = scale.x(start), scale.x(end)
            since = f'from {moments.moment_text(start)}'
            tip = f'{track.label} {"" if value else "not: "}{releases.label}, {since}'
            if value:
                picture.box(x, picture.y + 1, far - x, STRIP - 2, FREE, tip=tip)
            else:
                picture.box(x, picture.y + STRIP / 2 - 0.5, far - x, 1, '#a0a0a0', tip=tip)
        picture.y += STRIP + 3
    picture.y += 12


def draw_position(picture, label, start, end, value) -> None:
    """A time in which a switch had one position."""
    x, far = picture.scale.x(start), picture.scale.x(end)
    dash = '2 3' if value == UNKNOWN else ''
    picture.box(x, picture.y, far - x, BAND, FILLS[value], FAINT,
                f'{label} {value} from {moments.moment_text(start)}', dash)
    if room(value) + 6 <= far - x:
        plain = value in (UNKNOWN, 'open', 'closed')
        if not plain:
            picture.box((x + far - room(value)) / 2 - 3, picture.y + 3, room(value) + 6,
                        BAND - 6, '#ffffff')
        picture.text((x + far) / 2, picture.y + 15, value, anchor='middle',
                     fill='#ffffff' if value == 'closed' else INK)


def draw_input(picture, track) -> None:
    """An input as a wave: up is 1."""
    scale, low, high = picture.scale, picture.y + 15, picture.y + 2
    picture.lane(track.label, track.note, picture.y + 8)
    points = []
    for start, end, value in track.spells(scale.start, scale.end, 0):
        level = high if value else low
        if value:
            picture.box(scale.x(start), high, scale.x(end) - scale.x(start), low - high, '#cfe8e4',
                        tip=f'{track.label} 1 from {moments.moment_text(start)}')
        points += [(scale.x(start), level), (scale.x(end), level)]
    picture.path(points, '#00695c', tip=f'input {track.label}')
    picture.y += 24


def draw_measure(picture, track, doubt) -> None:
    """A measured value as steps, with its values where there is room for them; behind it when it
    is bad."""
    scale, height = picture.scale, 26
    for start, end, is_bad in doubt.spells(scale.start, scale.end):
        if is_bad:
            picture.box(scale.x(start), picture.y + 14, scale.x(end) - scale.x(start), height,
                        FILLS['bad'], tip=f'{track.label} bad from {moments.moment_text(start)}')
    values = [0] + [value for _, value in track.changes]
    low, high = min(values), max(max(values), min(values) + 1)
    base = picture.y + 14 + height
    picture.lane(track.label, track.note, picture.y + 14 + height / 2)
    zero, first = base + height * low / (high - low), scale.x(track.changes[0][0])
    points, free = [(first, zero)], 0
    for start, end, value in track.spells(track.changes[0][0], scale.end):
        x, far, y = scale.x(start), scale.x(end), base - height * (value - low) / (high - low)
        points += [(x, y), (far, y)]
        if x >= free and room(str(value)) + 4 <= far - x:
            picture.text(x + 3, y - 3, str(value), fill=FAINT)
            free = x + room(str(value)) + 8
    picture.path([(scale.x(scale.start), base), (scale.x(scale.end), base)], GRID, 1)
    picture.path([(scale.x(scale.start), zero), (first, zero)], '#6a3d9a', dash='2 3',
                 tip=f'{track.label}, not yet measured')
    unit = UNIT if track.note == PROCESS_UNIT else track.note
    picture.path(points, '#6a3d9a', tip=f'{track.label}, {unit}')
    picture.y += height + 26


def draw_legend(picture) -> None:
    """What the marks mean."""
    x, y = LEFT, picture.y + 4
    for value in (UNKNOWN, *POSITIONS):
        picture.box(x, y, 26, 12, FILLS[value], FAINT, dash='2 3' if value == UNKNOWN else '')
        picture.text(x + 32, y + 10, value)
        x += 32 + room(value) + 20
    picture.box(x, y + 2, 26, STRIP - 2, FREE)
    picture.text(x + 32, y + 10, 'allowed')
    picture.box(x + 110, y + 5, 26, 1, '#a0a0a0')
    picture.text(x + 142, y + 10, 'not allowed, after the scan')
    picture.text(12, y + 10, 'Legend', 13, weight='bold')
    picture.y += 30


def draw_clients_legend(picture, history) -> None:
    """What the marks of clients mean."""
    x, y = LEFT, picture.y
    picture.path([(x, y + 4), (x + 26, y + 4)], INK)
    picture.path([(x + 13, y), (x + 13, y + 8)], INK)
    picture.text(x + 32, y + 8, 'connected, and in talk')
    picture.path([(x + 200, y), (x + 204, y + 4), (x + 200, y + 8), (x + 196, y + 4), (x + 200, y)],
                 FREE, 1, FREE)
    picture.text(x + 210, y + 8, 'a control, granted')
    for slope in (-1, 1):
        picture.path([(x + 346, y + 4 - 4 * slope), (x + 354, y + 4 + 4 * slope)], WARN, 2)
    picture.text(x + 362, y + 8, 'refused')
    picture.path([(x + 440, y + 10), (x + 440, y - 2), (x + 448, y + 2), (x + 440, y + 6)], COMMAND,
                 1.5, COMMAND)
    picture.text(x + 454, y + 8, 'a command to the switch')
    if any(True for client in history.clients.values() for _ in client.bars()):
        picture.box(x + 640, y - 1, 26, 10, READS, FAINT)
        picture.text(x + 672, y + 8, 'a read that repeats')
    picture.y += 24


def draw_notes(picture, history) -> None:
    """The refused events in words, and how the replay ended."""
    for number, (_, told) in enumerate(history.refusals[:LISTED], 1):
        picture.text(LEFT, picture.y + 10, f'{number}', fill=WARN, weight='bold')
        picture.text(LEFT + 20, picture.y + 10, told)
        picture.y += 17
    if len(history.refusals) > LISTED:
        picture.text(LEFT, picture.y + 10,
                     f'and {len(history.refusals) - LISTED} more, each told at its cross',
                     fill=WARN)
        picture.y += 17
    if history.ending:
        picture.text(LEFT, picture.y + 10, history.ending, fill=WARN)
        picture.y += 17


def draw(history, name) -> str:
    """The whole picture."""
    picture = Timeline(Scale([int(it) for it in history.moments]))
    domain = history.bay['bay']['domain']
    picture.text(12, 26, f'Bay {domain}: {name}', 18, weight='bold')
    picture.text(WIDTH - RIGHT, 26, history.report, 12, 'end', FAINT)
    picture.y = 40
    draw_axis(picture)
    top = picture.y
    draw_events(picture, history)
    for key in history.switches:
        draw_switch(picture, history, key)
    for track in history.inputs.values():
        draw_input(picture, track)
    for label, track in history.measures.items():
        draw_measure(picture, track, history.doubts[label])
    for place in sorted(history.clients):
        draw_client(picture, history, history.clients[place])
    bottom = picture.y
    if history.switches:
        draw_legend(picture)
    if history.clients:
        draw_clients_legend(picture, history)
    draw_notes(picture, history)
    return page_of(picture, history, f'Timeline of bay {domain}: {name}', top, bottom)


def page_of(picture, history, heading, top, bottom) -> str:
    """The octets of the file: heading and description for readers, grid, and what was drawn."""
    scale = picture.scale
    grid = [f'<path d="M {scale.x(m):.1f} {top} V {bottom - 8}" stroke="{GRID}"/>'
            for m in scale.ticks()]
    picture.parts = grid + picture.parts
    return picture.page(WIDTH, picture.y + 10, heading, all_text(history), PATTERNS)


def all_text(history) -> str:
    """The description for readers."""
    names = ', '.join(track.label for track in history.switches.values())
    scans = quantity(len(history.scans), 'scan')
    told = (f'Positions of {names} over time, what the interlocking of each allowed after each of '
            f'{scans}, inputs and measures') if names else 'A session'
    return told + talk_text(history)


def talk_text(history) -> str:
    """The last words of the description: clients, commands, refusals."""
    commands = sum(map(len, history.commands.values()))
    controls = sum(len(it.marks) for it in history.clients.values())
    clients, what = '', 'events'
    if history.clients:
        done = quantity(commands, 'command') if history.switches else quantity(controls, 'control')
        clients = f', what {quantity(len(history.clients), "client")} asked, and {done}'
        what = 'events and requests'
    return f'{clients}. Refused {what}: {len(history.refusals)}.'
