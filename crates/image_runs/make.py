#!/usr/bin/env python3
"""Writes this crate's stdin and stdout: images, sound and damaged, and what loading each should answer. What is right stands here in Python, written from
document 01's "Saved form 1" and independent of the Rattle code: an image is built block by block, and judged by taking it apart.

A record of stdin: the image's length, the rows of the shelf table and of the item table it is loaded into, 16 bits each, then the image. A line of stdout:
the answer; a sum over each table after the load (every number of both tables was 7 before); and for answer 0 `same`, since saving again must give the image."""
import os
import struct

NONE, FILL, BLOCK = 65535, 7, 512
MOST = {1: (31, 8), 2: (28, 9)}


def block(number, kind, rows, numbers):
    body = struct.pack('<HBBH', number, 1, kind, rows) + struct.pack(f'<{len(numbers)}H', *numbers)
    body += bytes(BLOCK - 2 - len(body))
    return body + struct.pack('<H', sum(struct.unpack('<255H', body)) % 65535)


def image_of(header, shelves, items):
    ten, occupied = header[:10], header[10]
    out = [block(0, 0, 1, list(ten) + [occupied % 65536, occupied // 65536])]
    for kind, rows in ((1, shelves), (2, items)):
        most, _ = MOST[kind]
        for at in range(0, len(rows), most):
            part = rows[at:at + most]
            out.append(block(len(out), kind, len(part), [n for row in part for n in row]))
    return b''.join(out)


def parts(image):
    """The header's numbers and the rows of an image, or None where 01 says 9."""
    if len(image) < BLOCK or len(image) % BLOCK:
        return None
    blocks = [image[at:at + BLOCK] for at in range(0, len(image), BLOCK)]
    used_shelves, used_items = struct.unpack_from('<HH', image, 6 + 2 * 6)
    plan = [(0, 1, 12)]
    for kind, used in ((1, used_shelves), (2, used_items)):
        most, width = MOST[kind]
        while used > 0:
            rows = min(most, used)
            plan.append((kind, rows, rows * width))
            used -= rows
    if len(plan) != len(blocks):
        return None
    found = {0: [], 1: [], 2: []}
    for number, (b, (kind, rows, count)) in enumerate(zip(blocks, plan)):
        if struct.unpack_from('<HBBH', b) != (number, 1, kind, rows):
            return None
        if any(b[6 + 2 * count:510]) or sum(struct.unpack_from('<255H', b)) % 65535 != struct.unpack_from('<H', b, 510)[0]:
            return None
        found[kind] += struct.unpack_from(f'<{count}H', b, 6)
    return used_shelves, used_items, found[1], found[2]


def table_sum(table):
    s = 0
    for n in table:
        s = (s * 31 + n) % 65521
    return s


def line(image, shelf_rows, item_rows, sound):
    shelves, items = [FILL] * (8 * shelf_rows), [FILL] * (9 * item_rows)
    found = parts(image)
    if found is None:
        answer = 9
    elif found[0] > shelf_rows or found[1] > item_rows:
        answer = 7
    else:
        shelves[:len(found[2])], items[:len(found[3])] = found[2], found[3]
        answer = 0 if sound else 3
    end = ' same' if answer == 0 else ''
    return f'{answer} {table_sum(shelves)} {table_sum(items)}{end}\n'


def fresh(w, h, align_w, align_h, columns):
    """01: "C shelves, rows 0 to C-1, depth H, each with one free item of width S, generation 1"."""
    s = w // columns - (w // columns) % align_w
    c = w // s
    header = (w, h, align_w, align_h, 0, s, c, c, NONE, NONE, 0)
    shelves = [(i * s, 0, h, i - 1 if i else NONE, i + 1 if i + 1 < c else NONE, i, i, 1) for i in range(c)]
    items = [(i * s, s, NONE, NONE, NONE, NONE, i, 0, 1) for i in range(c)]
    return header, shelves, items


def live(occupied_width):
    """One column, one shelf of depth 40, a live item of that width and a free one beside it; item row 2 was freed, with generation 3."""
    header = (100, 40, 1, 1, 0, 100, 1, 3, 2, NONE, occupied_width * 40)
    shelves = [(0, 0, 40, NONE, NONE, 0, 1, 0)]
    items = [(0, occupied_width, NONE, 1, NONE, NONE, 0, 1, 1), (occupied_width, 100 - occupied_width, 0, NONE, NONE, NONE, 0, 0, 1), (0, 0, 0, NONE, 0, 0, 0, 0, 3)]
    return header, shelves, items


def with_number(rows, row, place, value):
    changed = list(rows[row])
    changed[place] = value
    return rows[:row] + [tuple(changed)] + rows[row + 1:]


def cases():
    small, large = fresh(100, 40, 1, 1, 1), fresh(4000, 300, 4, 8, 40)
    several = [small, large, live(30), fresh(3100, 64, 1, 1, 31), fresh(2800, 64, 1, 1, 28), fresh(640, 480, 16, 16, 5)]
    for atlas in several:
        image, rows = image_of(*atlas), (len(atlas[1]), len(atlas[2]))
        yield image, 64, 64, True
        yield image, *rows, True
        # one row short
        yield image, rows[0] - 1, rows[1], True
        yield image, rows[0], rows[1] - 1, True
        # cut short, one byte more, one block less, one more
        for end in (0, 1, 511, 512, len(image) - 1, len(image) - BLOCK):
            yield image[:end], 64, 64, True
        yield image + b'\0', 64, 64, True
        yield image + bytes(BLOCK), 64, 64, True
        yield image + image[-BLOCK:], 64, 64, True
    # each byte of a block
    image = image_of(*live(30))
    for at in range(2 * BLOCK, 3 * BLOCK):
        yield image[:at] + bytes([(image[at] + 1) % 256]) + image[at + 1:], 64, 64, True
    # blocks swapped, dropped, doubled
    image = image_of(*large)
    blocks = [image[at:at + BLOCK] for at in range(0, len(image), BLOCK)]
    for a in range(len(blocks)):
        for b in range(a):
            swapped = list(blocks)
            swapped[a], swapped[b] = blocks[b], blocks[a]
            yield b''.join(swapped), 64, 64, True
        yield b''.join(blocks[:a] + blocks[a + 1:]), 64, 64, True
        yield b''.join(blocks[:a + 1] + blocks[a:]), 64, 64, True
    # blocks with a right check and another number, form, kind, count of rows, or something after the data
    for b, (number, kind, rows) in enumerate([(0, 0, 1), (1, 1, 31), (2, 1, 9), (3, 2, 28), (4, 2, 12)]):
        _, width = MOST.get(kind, (1, 12))
        numbers = list(struct.unpack_from(f'<{rows * width}H', blocks[b], 6))
        wrong = [block(number + 1, kind, rows, numbers), block(number, kind + 1, rows, numbers), block(number, kind, rows + 1, numbers), block(number, kind, rows - 1, numbers)]
        if len(numbers) < 252:
            wrong += [block(number, kind, rows, numbers + [1]), block(number, kind, rows, numbers + [0] * (251 - len(numbers)) + [256])]
        other = bytearray(blocks[b])
        other[2] = 2
        other[510:] = struct.pack('<H', sum(struct.unpack_from('<255H', other)) % 65535)
        for one in wrong + [bytes(other)]:
            yield b''.join(blocks[:b] + [one] + blocks[b + 1:]), 64, 64, True
    # the header's used rows other than the blocks', with right checks
    header, shelves, items = large
    for place, value in ((6, 41), (6, 39), (6, 0), (7, 41), (7, 29), (6, 65535), (7, 65535)):
        changed = list(header)
        changed[place] = value
        first = block(0, 0, 1, changed[:10] + [0, 0])
        yield b''.join([first] + blocks[1:]), 64, 64, True
    # sound blocks, and rules that don't hold: the copied rows stay
    header, shelves, items = live(30)
    for broken in ((header, with_number(shelves, 0, 4, 0), items), (header, with_number(shelves, 0, 5, 2), items), (header, shelves, with_number(items, 0, 3, 0)),
                   (header, shelves, with_number(items, 1, 2, NONE)), (header, shelves, with_number(items, 2, 8, 4)[:2] + [(1,) + items[2][1:]]),
                   (header[:10] + (1201,), shelves, items), (header[:8] + (NONE,) + header[9:], shelves, items), ((0,) + header[1:], shelves, items)):
        yield image_of(*broken), 64, 64, False
    # no used row of a kind, and so no block of it: then the audit decides
    yield image_of(header[:6] + (0, 3) + header[8:], [], items), 64, 64, False
    yield image_of(header[:6] + (1, 0) + header[8:], shelves, []), 64, 64, False
    yield image_of((0,) * 11, [], []), 64, 64, False
    yield image_of((0,) * 11, [], []), 0, 0, False


if __name__ == '__main__':
    here = os.path.dirname(os.path.abspath(__file__))
    with open(os.path.join(here, 'stdin'), 'wb') as stdin, open(os.path.join(here, 'stdout'), 'w') as stdout:
        for image, shelf_rows, item_rows, sound in cases():
            stdin.write(struct.pack('<HHH', len(image), shelf_rows, item_rows) + image)
            stdout.write(line(image, shelf_rows, item_rows, sound))
