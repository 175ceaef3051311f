#!/usr/bin/env python3
"""Writes stdin and stdout of a program over a table of books that are converted to version 2 (request L9).

A row of stdin: a field of two bytes for the room lent and a label; a field with the book. Each field opens with its length in two bytes. Its line of
stdout: the label, number, place and bytes handed back, and a checksum of 32,800 bytes that are 170 before; the first so many of them are the room
lent. A checksum begins at 0 and becomes (c * 31 + v) % 2^32 for each byte.

Beside each row stands what was worked out by hand from documents 01 and 02: the new book, or the number and place of the refusal. stdout is made by
the independent evaluator (independent/, subcommand `conversions`), never by the program; the script asserts that both are the same.

usage: tools/convert_cases.py [FOLDER]            (crates/conversions, if none is named; builds the evaluator with cargo, writes both files)
"""
import os
import subprocess
import sys

here = os.path.dirname(os.path.abspath(__file__))
repository = os.path.join(here, '..')
BYTES = 32800
rows = []


def case(label, book, expected, room=32768):
    """`expected`: the new book, or number and place."""
    rows.append((label, bytes(book), expected, room))


def hx(text):
    return bytes.fromhex(text.replace(' ', ''))


def two(n):
    return bytes([n // 256, n % 256])


def part(body):
    return two(len(body)) + body


def symbol(kind, sort, *arguments):
    return bytes([2 + len(arguments), kind, sort, *arguments])


def book(symbols, trees, version=1):
    return bytes([version]) + part(b''.join(symbols)) + part(b''.join(part(t) for t in trees))


SMALL = hx('01 0012 020000 020000 0401000000 020100 03010000 0021'
           '000F 0200 010001 0201 01010001 01010000 0004 01010003 0008 0101000200000000')
SMALL_2 = b'\x02' + SMALL[1:]
A, F, F1 = symbol(0, 0), symbol(1, 0), symbol(1, 0, 0)

# ---- books that are converted
case('the small book has no exempt: only the version byte changes', SMALL, SMALL_2)
case('no operations', book([A], []), book([A], [], 2))
case('an exempt: 01 03, and both lengths grow by one', hx('01 0003 020100 0003 0001 00'), hx('02 0003 020100 0004 0002 0103'))
case('two operations, both exempt', book([F, F], [hx('00'), hx('00')]), book([F, F], [hx('0103'), hx('0103')], 2))
case('an exempt behind a rule', book([F, F], [hx('01 03'), hx('00')]), book([F, F], [hx('0103'), hx('0103')], 2))
case('a rule behind an exempt', book([F, F], [hx('00'), hx('01 010000')]), book([F, F], [hx('0103'), hx('01 010000')], 2))
case('an exempt in a branch, the first case', book([A, A, F1], [hx('0200 00 01 0000')]), book([A, A, F1], [hx('0200 0103 01 0000')], 2))
case('an exempt in a branch, the last case', book([A, A, F1], [hx('0200 01 0000 00')]), book([A, A, F1], [hx('0200 01 0000 0103')], 2))
case('exempts in a branch below a branch', book([A, symbol(0, 0, 0), F1], [hx('0200 00 0201 00 01 0000')]),
     book([A, symbol(0, 0, 0), F1], [hx('0200 0103 0201 0103 01 0000')], 2))
case('a branch without trees', book([symbol(1, 0, 9)], [hx('0200')]), book([symbol(1, 0, 9)], [hx('0200')], 2))
case('variable 0 and code 0 are no exempt', book([A, F1], [hx('0200 01 0000')]), book([A, F1], [hx('0200 01 0000')], 2))
case('symbol 0 in a rule is no exempt', book([A, F], [hx('01 010000')]), book([A, F], [hx('01 010000')], 2))
case('256 exempts in a tree: its length passes 255',
     book([A] * 256 + [F1], [hx('0200') + b'\x00' * 256]), book([A] * 256 + [F1], [hx('0200') + b'\x01\x03' * 256], 2))

# ---- room
one_spot = book([F], [hx('00')])
case('room to the last byte', one_spot, book([F], [hx('0103')], 2), room=12)
case('room one short', one_spot, (52, 0), room=11)
case('room for the old book only', one_spot, (52, 0), room=len(one_spot))
case('no room', one_spot, (52, 0), room=0)
case('room of 32,800 bytes', SMALL, SMALL_2, room=32800)
case('the reader\'s own comes before 52', SMALL + b'\x00', (1, 56), room=0)
case('2 comes before 52', SMALL_2, (2, 0), room=0)

# ---- refused
case('empty', b'', (1, 0))
case('version 0', b'\x00' + SMALL[1:], (2, 0))
case('version 2: it is not converted again', SMALL_2, (2, 0))
case('version 3', b'\x03' + SMALL[1:], (2, 0))
case('version 2, and a byte left over: the version is met first', SMALL_2 + b'\x00', (2, 0))
case('version 2 alone', b'\x02', (2, 0))
case('version 1 alone', b'\x01', (1, 1))
case('32,769 bytes of version 2: over its size comes first', b'\x02' * 32769, (1, 0))
case('32,768 bytes of version 2', b'\x02' * 32768, (2, 0))
case('the small book cut to 55 bytes', SMALL[:55], (1, 21))
case('no symbols', hx('01 0000 0000'), (3, 1))
case('kind 2', hx('01 0003 020200 0000'), (3, 4))
case('tree code 3 behind an exempt', book([F, F], [hx('00'), hx('03')]), (4, 3 + 6 + 2 + 3 + 2))
case('code 4 in version 1', book([F], [hx('01 04 00 03 03')]), (4, 11))
case('a wrong sort', book([F, symbol(0, 1)], [hx('01 010001')]), (5, 14))
case('a byte left over behind an exempt', book([F], [hx('00 00')]), (1, 11))


# ---- 32,768 bytes: an operation without arguments takes 3 bytes, its tree 2 for the length and as many as it has
def full(size, exempts):
    """A book of so many bytes with so many exempt operations; the others have a rule to fail, or a long row of choices."""
    symbols, trees, left = [F] * exempts, [b'\x00'] * exempts, size - 5 - 6 * exempts
    while left > 7 + 62 + 7 + 64:
        symbols.append(F)
        trees.append(b'\x01' + b'\x02\x03' * 31 + b'\x03')
        left -= 3 + 2 + 64
    # what is left, in two operations; one with an argument if it is odd
    more = left - 2 * 7
    for extra in (min(more, 62), more - min(more, 62)):
        symbols.append(F if extra % 2 == 0 else F1)
        trees.append(b'\x01' + b'\x02\x03' * (extra // 2) + b'\x03')
    made = book(symbols, trees)
    assert len(made) == size, (len(made), size)
    return made, book(symbols, [t if t != b'\x00' else b'\x01\x03' for t in trees], 2)


just = full(32764, 4)
case('32,764 bytes, four exempts: 32,768', just[0], just[1])
case('32,765 bytes, four exempts: 32,769', full(32765, 4)[0], (52, 0))
case('32,768 bytes, no exempt', *full(32768, 0))

target = os.environ.get('CARGO_TARGET_DIR') or os.path.join(os.environ.get('TMPDIR', '/tmp'), 'independent-target')
subprocess.run(['cargo', 'build', '--quiet', '--release', '--offline'], cwd=os.path.join(repository, 'independent'), check=True,
               env=dict(os.environ, CARGO_TARGET_DIR=target))


def checksum(memory):
    c = 0
    for v in memory:
        c = (c * 31 + v) % 4294967296
    return c


table, hand = b'', ''
for label, given, expected, room in rows:
    table += part(two(room) + label.encode()) + part(given)
    refused = isinstance(expected, tuple)
    number, place = expected if refused else (0, 0)
    new = b'' if refused else expected
    assert len(new) <= min(room, 32768)
    hand += f'{label}: {number} {place} {len(new)}; bytes {checksum(new + bytes([170]) * (BYTES - len(new)))}\n'
printed = subprocess.run([os.path.join(target, 'release', 'independent'), 'conversions'], input=table, stdout=subprocess.PIPE, check=True).stdout.decode()
for ours, theirs in zip(hand.splitlines(), printed.splitlines()):
    if ours != theirs:
        sys.exit(f'by hand   {ours}\nevaluator {theirs}')
assert hand == printed
folder = sys.argv[1] if len(sys.argv) > 1 else os.path.join(repository, 'crates', 'conversions')
os.makedirs(folder, exist_ok=True)
with open(os.path.join(folder, 'stdin'), 'wb') as f:
    f.write(table)
with open(os.path.join(folder, 'stdout'), 'w') as f:
    f.write(printed)
assert len(table) <= 262144
print(len(rows), 'rows,', len(table), 'bytes')
