"""What is released in each combination as a table (CSV), and on what each release depends as a
picture, with numbers."""
import csv
import math
from dataclasses import dataclass

from baytools.common.svg import FAINT, FREE, GRID, INK, Picture, room
from baytools.common.texts import upcase

from .variables import SWITCH, WAYS

SOME, NONE = '#cfe6d0', '#ffffff'
LEFT, CELL, ROW, APART = 130, 46, 24, 14


def write_table(bay, table: list, path) -> None:
    """What is released in each combination."""
    with open(path, 'w', newline='', encoding='utf-8') as file:
        writer = csv.writer(file, lineterminator='\n')
        heads = [f'{name} {way}' for name in bay.switches() for way in WAYS]
        names = [upcase(thing.name) for thing in bay.things]
        writer.writerow([thing.name if names.count(upcase(thing.name)) == 1 else
                         f'{thing.name} ({thing.kind})' for thing in bay.things] + heads)
        for combination, releases in table:
            values = [thing.value_text(value) for thing, value in zip(bay.things, combination)]
            free = [int(free) for name in bay.switches() for free in releases[upcase(name)]]
            writer.writerow(values + free)


@dataclass
class Column:
    """Values of a thing between which no release tells: their words, how many combinations have
    one of them, and in how many of these each release stands."""
    told: str
    looked: int
    counts: list


@dataclass
class Block:
    """A thing with its columns, and the releases that depend on it, as places."""
    thing: object
    columns: list
    depends: set
    cell: float = CELL
    x: float = 0

    def width(self) -> float:
        return self.cell * len(self.columns)


def masks_of(bay, table) -> list:
    """What is released in each combination, as bits: to open and to close each switch in turn."""
    order = [(upcase(name), way) for name in bay.switches() for way in range(len(WAYS))]
    return [sum(releases[name][way] << at for at, (name, way) in enumerate(order))
            for _, releases in table]


def blocks_of(bay, table: list) -> list[Block]:
    """A block for each thing on which a release depends."""
    masks, count = masks_of(bay, table), len(WAYS) * len(bay.switches())
    blocks = [block_of(thing, place, table, masks, count) for place, thing in enumerate(bay.things)]
    blocks = [block for block in blocks if block.depends]
    widest = max((room(f'{column.looked:,}') for block in blocks for column in block.columns),
                 default=0)
    for block in blocks:
        block.cell = max(CELL, widest + 10)
    return blocks


def looked_text(column: Column) -> str:
    return f'of {column.looked:,}'


def block_of(thing, place, table, masks, count) -> 'Block':
    by_value = {value: [] for value in thing.values}
    for (combination, _), mask in zip(table, masks):
        by_value[combination[place]].append(mask)
    groups, differing = {}, 0
    for value, found in by_value.items():
        groups.setdefault(tuple(found), []).append(value)
        for one, other in zip(found, by_value[thing.values[0]]):
            differing |= one ^ other
    columns = []
    for found, values in groups.items():
        counts = [len(values) * sum(mask >> at & 1 for mask in found) for at in range(count)]
        columns.append(Column(group_text(thing, values), len(values) * len(found), counts))
    return Block(thing, columns, {at for at in range(count) if differing >> at & 1})


def group_text(thing, values) -> str:
    others = [thing.value_text(value) for value in thing.values if value not in values]
    if thing.kind == SWITCH and others and len(others) < len(values):
        return 'not ' + '|'.join(others)
    return '|'.join(thing.value_text(value) for value in values)


def notes_of(bay, blocks) -> list:
    """What has no column, in words."""
    shown = [block.thing for block in blocks]
    idle = [it.name for it in bay.things if it not in shown and len(it.values) > 1]
    held = [f'{it.name} {it.value_text(it.values[0])}' for it in bay.things if len(it.values) == 1]
    notes = [f'Held at one value: {", ".join(held)}.'] if held else []
    notes += [f'No release depends on {", ".join(idle)}.'] if idle else []
    return notes + ([f'Not read by the program: {", ".join(bay.unread)}.'] if bay.unread else [])


def bands_of(blocks: list[Block], width: float) -> list[list[Block]]:
    """The blocks in bands, none of which is wider than that where a block alone is not."""
    bands, x = [[]], LEFT
    for block in blocks:
        space = max(block.width(), room(block.thing.name, 13)) + APART
        if bands[-1] and x + space > width:
            bands.append([])
            x = LEFT
        block.x, x = x, x + space
        bands[-1].append(block)
    return bands


TOLD = ('For each release and each position or value on which it depends: in how many of the '
        'combinations with that value it stands.')


def draw(bay, table: list, heading: str = '', width: float = math.inf) -> str:
    """The picture: a row for each release, a column for each group of values; where these are too
    wide, they stand in bands one below the other."""
    picture, blocks = Picture(), blocks_of(bay, table)
    if heading:
        picture.text(12, 26, heading, 18, weight='bold')
    picture.y = 40 if heading else 0
    for number, band in enumerate(bands_of(blocks, width)):
        draw_band(picture, bay, table, blocks, band, number == 0)
    return whole_picture(picture, bay, table, blocks, heading)


def draw_parts(bay, table: list, width: float) -> list[str]:
    """The same as a picture for each band and one of the legend, between which a page may end."""
    blocks, parts = blocks_of(bay, table), []
    for number, band in enumerate(bands_of(blocks, width)):
        picture = Picture()
        draw_band(picture, bay, table, blocks, band, number == 0)
        widest = max([block.x + block.width() + 10 for block in band] + [LEFT + 60])
        parts.append(picture.page(math.ceil(widest), picture.y + 8, f'Releases, band {number + 1}',
                                  TOLD, key=f'-{number + 1}'))
    return [*parts, whole_picture(Picture(), bay, table, [], '', '-0')]


def whole_picture(picture, bay, table, blocks, heading, key='') -> str:
    """A picture with its legend and its notes."""
    notes = notes_of(bay, blocks_of(bay, table))
    far = draw_legend(picture, len(table), notes)
    ends = [far] + [block.x + block.width() + 10 for block in blocks]
    widest = max([room(note) + 24 for note in notes] + ends)
    return picture.page(math.ceil(widest), picture.y + 8, heading or 'Releases', TOLD, key=key)


def draw_band(picture, bay, table, blocks, band, is_first) -> None:
    """The releases over some of the blocks; below the first band only those that depend on one."""
    longest = max([room(told) for block in band for column in block.columns
                   for told in (column.told, looked_text(column))] + [24])
    name_y = picture.y + 24
    picture.y += 24 + longest + 22
    for block in band:
        draw_head(picture, block, block.x, name_y, picture.y)
    for place, name in enumerate(bay.switches()):
        ats = [place * len(WAYS) + way for way in range(len(WAYS))]
        if is_first or any(at in block.depends for at in ats for block in band):
            for way, at in enumerate(ats):
                draw_row(picture, name, way, at, band)
                if is_first and not any(at in block.depends for block in blocks):
                    is_free = bool(table) and table[0][1][upcase(name)][way]
                    told = 'always' if is_free else 'never'
                    picture.text(LEFT + 4, picture.y - ROW + 16, told)
            picture.y += 8


def draw_head(picture, block, x, y, top) -> None:
    """The name of a thing, and above each column its values and its combinations."""
    picture.text(x, y, block.thing.name, 12, weight='bold')
    for at, column in enumerate(block.columns):
        middle = x + block.cell * at + block.cell / 2
        picture.upward(middle - 4, top - 8, column.told)
        picture.upward(middle + 12, top - 8, looked_text(column), FAINT)


def draw_row(picture, name, way, at, band) -> None:
    """One release over a band."""
    y = picture.y
    picture.text(12, y + 16, name if way == 0 else '', 13, weight='bold')
    picture.text(LEFT - 10, y + 16, WAYS[way], anchor='end')
    for block in band:
        if at in block.depends:
            for place, column in enumerate(block.columns):
                draw_cell(picture, block, place, at, f'{name} {WAYS[way]} with '
                          f'{block.thing.name} {column.told}')
    picture.y += ROW


def draw_cell(picture, block, place, at, told) -> None:
    """In how many of the combinations of a column a release stands."""
    column, x = block.columns[place], block.x + block.cell * place
    count, y = column.counts[at], picture.y
    fill = FREE if count == column.looked else SOME if count else NONE
    tip = f'{told}: {count:,} of {column.looked:,}'
    picture.box(x, y, block.cell - 2, ROW - 2, fill, GRID, tip)
    ink = '#ffffff' if fill == FREE else INK if count else FAINT
    shown = f'{count:,}' if count else '–'
    picture.text(x + block.cell / 2 - 1, y + 15, shown, anchor='middle', fill=ink)


def draw_legend(picture, count, notes) -> float:
    """What the colours mean, and the notes; how far to the right it comes."""
    y = picture.y + 10
    picture.text(12, y + 10, f'Of {count:,}', fill=FAINT)
    x = LEFT
    for fill, told in ((FREE, 'released in all'), (SOME, 'in so many'), (NONE, 'in none')):
        picture.box(x, y, 20, 12, fill, GRID)
        picture.text(x + 26, y + 10, told)
        x += 26 + room(told) + 16
    last = 'empty: it does not matter'
    picture.text(x, y + 10, last, fill=FAINT)
    picture.y = y + 26
    for note in notes:
        picture.text(12, picture.y + 8, note)
        picture.y += 18
    return x + room(last) + 12
