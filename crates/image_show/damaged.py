#!/usr/bin/env python3
"""Damages images in every way that load tells apart, and holds what image_show tells of each against what was damaged:
    tools/built image_show && python3 crates/image_show/damaged.py target/bin/image_show
Not part of the gate. Says how many were tried, and ends with 1 where one was told otherwise."""
import os
import subprocess
import sys

sys.dont_write_bytecode = True
sys.path.insert(0, os.path.join(os.path.dirname(os.path.abspath(__file__)), '..', 'image_runs'))
from make import BLOCK, NONE, block, fresh, image_of, live, with_number  # noqa: E402

# The blocks of fresh(.., 40): the words of data of each. The header, a full and a short block of shelf rows, a full and a short block of item rows.
DATA = (12, 31 * 8, 9 * 8, 28 * 9, 12 * 9)


def place(at, count):
    """What stands at a byte of a block whose data has so many words, as image_show tells it."""
    if at < 6:
        return ('number', 'number', 'form', 'kind', 'rows', 'rows')[at]
    return 'unused byte' if 6 + 2 * count <= at < 510 else 'check'


def checked(body):
    words = [body[at] + 256 * body[at + 1] for at in range(0, 510, 2)]
    return body[:510] + (sum(words) % 65535).to_bytes(2, 'little')


def cases():
    large = fresh(4000, 300, 4, 8, 40)
    image = image_of(*large)
    blocks = [image[at:at + BLOCK] for at in range(0, len(image), BLOCK)]
    # each byte of each block, with the check as it was; and outside the data with the check made right
    for b, count in enumerate(DATA):
        for at in range(BLOCK):
            body = blocks[b][:at] + bytes([(blocks[b][at] + 1) % 256]) + blocks[b][at + 1:]
            tells = f'no 9: {place(at, count)} wrong in block {b}'
            yield b''.join(blocks[:b] + [body] + blocks[b + 1:]), tells
            if place(at, count) != 'check':
                yield b''.join(blocks[:b] + [checked(body)] + blocks[b + 1:]), tells
    # cut short, lengthened, blocks left out, doubled and swapped
    for end in range(0, len(image), 37):
        yield image[:end], f'no 9: length wrong from block {end // BLOCK}'
    for more in (b'\0', bytes(BLOCK), blocks[4]):
        yield image + more, 'no 9: length wrong from block 5'
    for b in range(4):
        yield b''.join(blocks[:b] + blocks[b + 1:]), f'no 9: number wrong in block {b}'
        yield b''.join(blocks[:b + 1] + blocks[b:]), f'no 9: number wrong in block {b + 1}'
        yield b''.join(blocks[:b] + [blocks[b + 1], blocks[b]] + blocks[b + 2:]), f'no 9: number wrong in block {b}'
    # the header's used rows other than those of the blocks, with a right check
    for where, value, tells in ((6, 41, 'rows wrong in block 2'), (6, 31, 'kind wrong in block 2'), (6, 63, 'rows wrong in block 2'), (6, 0, 'kind wrong in block 1'),
                                (7, 41, 'rows wrong in block 4'), (7, 28, 'length wrong from block 4'), (7, 0, 'length wrong from block 3'), (7, 65535, 'rows wrong in block 4')):
        numbers = list(large[0][:10]) + [0, 0]
        numbers[where] = value
        yield b''.join([block(0, 0, 1, numbers)] + blocks[1:]), 'no 9: ' + tells
    # sound blocks, and a rule that fails
    header, shelves, items = live(30)
    one, two, three, lists = 'audit rule 1 fails', 'audit rule 2 fails', 'audit rule 3 fails', 'one of audit rules 5 to 7 fails'
    for broken, tells in (((((0,) + header[1:]), shelves, items), one), ((header[:4] + (2,) + header[5:], shelves, items), one), ((header, with_number(shelves, 0, 4, 0), items), two),
                          ((header, with_number(shelves, 0, 2, 39), items), two), ((header, shelves, with_number(items, 1, 2, NONE)), three),
                          ((header, shelves, with_number(items, 0, 7, 2)), three), ((header, with_number(shelves, 0, 6, 0), items), lists),
                          ((header[:8] + (NONE,) + header[9:], shelves, items), lists), ((header[:10] + (1201,), shelves, items), lists)):
        yield image_of(*broken), 'no 3: ' + tells


if __name__ == '__main__':
    tried = wrong = 0
    for image, tells in cases():
        told = subprocess.run([sys.argv[1]], input=image, capture_output=True).stdout.decode()
        tried += 1
        if told != tells + '\n':
            wrong += 1
            print(f'{len(image)} bytes: told {told!r}, not {tells!r}')
    print(f'{tried} damaged images, {wrong} told otherwise')
    sys.exit(wrong > 0)
