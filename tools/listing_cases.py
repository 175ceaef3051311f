#!/usr/bin/env python3
"""Writes stdin and stdout of a program over a table of tagged listings (requests L5 and L6).

A row of stdin: how many bytes and how many numbers are lent (two bytes each), the listing's length (four bytes), the listing. Its two lines of stdout:
`L number line bytes checksum`, the checksum over 33,000 bytes that are 170 before, c = (c * 31 + v) % 2^32 from 0; and `O number line headings circle:`
with those of 400 numbers that are not 43,690, which each is before.

Beside each row stands what was worked out by hand from request L5 and L6: the refusal and its line, or the count of bytes and the levels or the circle.
stdout is made by the independent evaluator (independent/, subcommand `listed`), never by the program; the script asserts that both agree.

usage: tools/listing_cases.py [--short] [FOLDER]            (crates/listed, if none is named; builds the evaluator with cargo, writes both files)
--short leaves out the listings of more than 8,000 bytes, which take a program long that goes through all lines for each.
"""
import os
import random
import subprocess
import sys

here = os.path.dirname(os.path.abspath(__file__))
repository = os.path.join(here, '..')
rows = []


def case(what, listing, book, saved, room=32768, row=400):
    """`book`: (number, line) or how many bytes; `saved`: (number, line), or a list: the levels, or ['circle', ..]; None for what is not known."""
    rows.append((what, listing if isinstance(listing, bytes) else listing.encode(), book, saved, room, row))


def refused(what, listing, number, line, **lent):
    case(what, listing, (number, line), (number, line), **lent)


def good(what, listing, size, saved, **lent):
    case(what, listing, size, saved, **lent)


def size(n, m, z):
    """The bytes of a book of n headings, m BT lines and z headings without BT: symbols of 3 bytes, trees behind two bytes each; 4k and 8k for k BT,
    2 and 2 for none."""
    return 5 + 13 * n + 12 * m + 4 * z


def listing(hops, names):
    """Each heading with its BT lines in the order of `hops` (from, to), then its NT lines."""
    out = ''
    for n in names:
        out += n + '\n'
        out += ''.join(f'  BT {b}\n' for a, b in hops if a == n)
        out += ''.join(f'  NT {a}\n' for a, b in hops if b == n)
    return out


def circle(*numbers):
    return ['circle', *numbers]


# ---- lines of the form, and 40
refused('an empty listing', '', 40, 1)
good('one heading', 'a\n', size(1, 0, 1), [0])
refused('a last line without a newline', 'a', 40, 1)
refused('a last line without a newline, the second', 'a\nb', 40, 2)
refused('an empty line', '\n', 40, 1)
refused('an empty line between', 'a\n\nb\n', 40, 2)
refused('an empty line at the end', 'a\n\n', 40, 2)
refused('a carriage return', 'a\r\n', 40, 1)
good('byte 126', b'~\n', size(1, 0, 1), [0])
refused('byte 127', b'\x7f\n', 40, 1)
refused('byte 31', b'a\x1f\n', 40, 1)
good('byte 33 opens a heading', b'!\n', size(1, 0, 1), [0])
refused('byte 32 opens a heading', b' a\n', 40, 1)
refused('two blanks open a heading', b'  a\n', 40, 1)
good('byte 32 inside and at the end', b'a b \n', size(1, 0, 1), [0])
refused('byte 0', b'a\x00\n', 40, 1)
refused('byte 128', b'a\x80\n', 40, 1)
refused('byte 255', b'\xff\n', 40, 1)
refused('a tab before BT', 'a\n\tBT b\n', 40, 2)
good('BT without blanks in front is a heading', 'BT a\n', size(1, 0, 1), [0])
good('NT alone is a heading', 'NT\n', size(1, 0, 1), [0])
refused('one blank before BT', 'a\n BT a\n', 40, 2)
refused('three blanks before BT', 'a\n   BT a\n', 40, 2)
refused('no blank behind BT', 'a\n  BTa\n', 40, 2)
refused('two blanks behind BT: a heading does not open with one', 'a\n  BT  a\n', 40, 2)
refused('BT without a heading', 'a\n  BT \n', 40, 2)
refused('BT and nothing', 'a\n  BT\n', 40, 2)
refused('bt in small letters', 'a\n  bt a\n', 40, 2)
refused('RT', 'a\n  RT a\n', 40, 2)
refused('byte 127 in the heading of a BT', b'a\n  BT a\x7f\n', 40, 2)
refused('a carriage return behind a BT', 'a\n  BT a\r\n', 40, 2)
refused('BT before any heading', '  BT a\na\n', 40, 1)
refused('NT before any heading', '  NT a\na\n', 40, 1)
refused('a BT line without its newline', 'a\n  BT a', 40, 2)
good('a heading of 300 bytes', 'x' * 300 + '\n', size(1, 0, 1), [0])

# ---- 41
refused('a heading given twice', 'a\na\n', 41, 2)
refused('a heading given twice, lines between', 'a\nb\n  BT a\na\n', 41, 4)
refused('given three times: the second is named', 'a\nb\na\na\n', 41, 3)
refused('two headings given twice: the first line that gives one again', 'a\nb\nb\na\n', 41, 3)
good('a heading that another begins with', 'a\nab\na \n', size(3, 0, 3), [0, 0, 0])
good('capitals are other bytes', 'a\nA\n', size(2, 0, 2), [0, 0])
refused('41 before a later 40', 'a\na\n\n', 41, 2)
refused('40 before a later 41', 'a\n\na\n', 40, 2)
refused('40 and 41 of one line: it has no newline', 'a\na', 40, 2)
refused('41 before 42 of an earlier line', 'a\n  BT c\na\n', 41, 3)
refused('40 at the end before 42 of an earlier line', 'a\n  BT c\nb', 40, 3)

# ---- 42
refused('BT whose heading has no line of its own', 'a\n  BT b\n', 42, 2)
refused('NT whose heading has no line of its own', 'a\n  NT b\n', 42, 2)
refused('BT without its mirror', 'a\n  BT b\nb\n', 42, 2)
refused('NT without its mirror', 'a\nb\n  NT a\n', 42, 3)
refused('BT answered by BT', 'a\n  BT b\nb\n  BT a\n', 42, 2)
refused('the second of two without a mirror', 'a\n  BT b\n  BT c\nb\n  NT a\nc\n', 42, 3)
refused('a mirror under another heading', 'a\n  BT b\nb\nc\n  NT a\n', 42, 2)
refused('a mirror that names a longer heading', 'a\n  BT b\nb\n  NT aa\naa\n', 42, 2)
refused('a blank at the end makes another heading', 'a\n  BT b \nb\n  NT a\n', 42, 2)
refused('two defects: the lowest line, a missing heading', 'a\n  BT x\nb\n  BT c\nc\n', 42, 2)
refused('two defects: the lowest line, a missing mirror', 'a\n  BT b\nb\n  BT x\n', 42, 2)
refused('a heading of its own without the mirror', 'a\n  BT a\n', 42, 2)
refused('42 before 43', listing([], [f'h{i}' for i in range(341)]) + 'z\n  BT x\n', 42, 343)

# ---- good ones
good('one above the other', 'a\n  BT b\nb\n  NT a\n', size(2, 1, 1), [1, 0])
good('the mirror first', 'b\n  NT a\na\n  BT b\n', size(2, 1, 1), [0, 1])
good('NT before BT under one heading', 'a\n  NT c\n  BT b\nb\n  NT a\nc\n  BT a\n', size(3, 2, 1), [1, 0, 2])
good('two broader terms in listing order', 'c\na\n  BT b\n  BT c\nb\n  NT a\n'.replace('c\na', 'c\n  NT a\na', 1), size(3, 2, 2), [0, 1, 0])
good('the same two in the other order', 'c\n  NT a\na\n  BT c\n  BT b\nb\n  NT a\n', size(3, 2, 2), [0, 1, 0])
good('a BT line twice: the term stands twice', 'a\n  BT b\n  BT b\nb\n  NT a\n', size(2, 2, 1), [1, 0])
good('a BT line twice, its mirror twice', 'a\n  BT b\n  BT b\nb\n  NT a\n  NT a\n', size(2, 2, 1), [1, 0])
good('an NT line twice', 'a\n  BT b\nb\n  NT a\n  NT a\n', size(2, 1, 1), [1, 0])
good('a long way and a short one: the longest counts', listing([('a', 'd'), ('a', 'b'), ('b', 'c'), ('c', 'd')], 'abcd'), size(4, 4, 1), [3, 2, 1, 0])
good('a heading named BT x under another', 'BT x\n  NT a\na\n  BT BT x\n', size(2, 1, 1), [0, 1])
DOLLIES = [('corn dollies', 'straw work'), ('corn dollies', 'harvest customs'), ('plaiting', 'straw work'), ('straw work', 'crafts'),
           ('harvest customs', 'calendar customs')]
HEADINGS = ['corn dollies', 'plaiting', 'straw work', 'harvest customs', 'crafts', 'calendar customs']
good('the archive\'s example without its circle', listing(DOLLIES, HEADINGS), size(6, 5, 2), [2, 2, 1, 1, 0, 0])
good('the archive\'s example', listing(DOLLIES + [('straw work', 'plaiting')], HEADINGS), size(6, 6, 2), circle(1, 2))

# ---- circles
good('a heading that is its own BT', 'a\n  BT a\n  NT a\n', size(1, 1, 0), circle(0))
good('its own BT twice', 'a\n  BT a\n  BT a\n  NT a\n', size(1, 2, 0), circle(0))
good('a circle of two', listing([('a', 'b'), ('b', 'a')], 'ab'), size(2, 2, 0), circle(0, 1))
good('a circle of three', listing([('a', 'b'), ('b', 'c'), ('c', 'a')], 'abc'), size(3, 3, 0), circle(0, 1, 2))
good('a circle of three the other way', listing([('a', 'c'), ('c', 'b'), ('b', 'a')], 'abc'), size(3, 3, 0), circle(0, 2, 1))
good('a circle behind a heading that is not in it', listing([('a', 'b'), ('b', 'c'), ('c', 'b')], 'abc'), size(3, 3, 0), circle(1, 2))
good('a circle of two before a circle of one: the shorter', listing([('a', 'b'), ('b', 'a'), ('c', 'c')], 'abc'), size(3, 3, 0), circle(2))
good('a circle of three and one of two in it', listing([('a', 'b'), ('b', 'c'), ('c', 'a'), ('c', 'b')], 'abc'), size(3, 4, 0), circle(1, 2))
good('two circles of two: the lowest heading', listing([('c', 'd'), ('d', 'c'), ('a', 'b'), ('b', 'a')], 'abcd'), size(4, 4, 0), circle(0, 1))
good('two circles of one', listing([('b', 'b'), ('a', 'a')], 'ab'), size(2, 2, 0), circle(0))
good('a tie at the second heading: the lower', listing([('a', 'c'), ('c', 'a'), ('a', 'b'), ('b', 'a')], 'abc'), size(3, 4, 0), circle(0, 1))
good('a tie at the third heading: the lower, listed later',
     listing([('a', 'b'), ('b', 'd'), ('b', 'c'), ('c', 'a'), ('d', 'a')], 'abcd'), size(4, 5, 0), circle(0, 1, 2))
good('a tie at the second heading of four, though its way on is higher',
     listing([('a', 'c'), ('c', 'b'), ('b', 'a'), ('a', 'd'), ('d', 'b')], 'abcd'), size(4, 5, 0), circle(0, 2, 1))
good('a shorter circle that starts higher', listing([('a', 'b'), ('b', 'c'), ('c', 'd'), ('d', 'a'), ('d', 'b')], 'abcd'), size(4, 5, 0), circle(1, 2, 3))
good('a circle of six', listing([(chr(97 + i), chr(97 + (i + 5) % 6)) for i in range(6)], 'abcdef'), size(6, 6, 0), circle(0, 5, 4, 3, 2, 1))
good('a hop given twice on a circle', 'a\n  BT b\n  BT b\n  NT b\nb\n  NT a\n  BT a\n', size(2, 3, 0), circle(0, 1))
good('a way up from a circle', listing([('a', 'b'), ('b', 'a'), ('b', 'c')], 'abc'), size(3, 3, 1), circle(0, 1))

# ---- 43 and 44: the room, the row
PAIR = 'a\n  BT b\nb\n  NT a\n'
good('room to the last byte', PAIR, size(2, 1, 1), [1, 0], room=size(2, 1, 1))
case('room one short: 43 for the book alone', PAIR, (43, 0), [1, 0], room=size(2, 1, 1) - 1)
case('no room', PAIR, (43, 0), [1, 0], room=0)
refused('42 before 43 of the room', 'a\n  BT b\nb\n', 42, 2, room=0)
good('a row to the last number', PAIR, size(2, 1, 1), [1, 0], row=2)
case('a row one short', PAIR, size(2, 1, 1), (44, 0), row=1)
case('no row', PAIR, size(2, 1, 1), (44, 0), row=0)
case('a row that the circle alone would fit', 'a\n  BT a\n  NT a\nb\n', size(2, 1, 1), (44, 0), row=1)
good('a row behind a circle stays as it was', 'a\n  BT a\n  NT a\nb\n', size(2, 1, 1), circle(0), row=2)
case('42 before 44', 'a\n  BT b\nb\n', (42, 2), (42, 2), row=0)

# ---- 43: the sizes of a book
names = [f'h{i}' for i in range(342)]
good('341 headings: 1,023 symbols', listing([], names[:341]), size(341, 0, 341), [0] * 341)
refused('342 headings: 1,026 symbols', listing([], names), 43, 0)
case('342 headings, a short row: 43 comes before 44', listing([], names), (43, 0), (43, 0), row=341)
case('341 headings, a row of 340', listing([], names[:341]), size(341, 0, 341), (44, 0), row=340)
terms = [chr(97 + i) for i in range(17)]
good('16 BT: 63 nodes in the second rule', listing([('x', t) for t in terms[:16]], ['x'] + terms[:16]), size(17, 16, 16), [1] + [0] * 16)
refused('17 BT: 67 nodes', listing([('x', t) for t in terms], ['x'] + terms), 43, 0)
good('16 BT of one heading, given again and again', 'a\n' + '  BT b\n' * 16 + 'b\n  NT a\n', size(2, 16, 1), [1, 0])
refused('17 BT of one heading', 'a\n' + '  BT b\n' * 17 + 'b\n  NT a\n', 43, 0)
good('17 NT are no nodes', 'a\n  BT b\nb\n' + '  NT a\n' * 17, size(2, 1, 1), [1, 0])
refused('17 BT on a circle', 'a\n' + '  BT a\n' * 17 + '  NT a\n', 43, 0)
good('340 hops above one another', listing([(names[i], names[i + 1]) for i in range(340)], names[:341]), size(341, 340, 1), list(range(340, -1, -1)))
good('a circle of 341', listing([(names[i], names[(i + 1) % 341]) for i in range(341)], names[:341]), size(341, 341, 0), circle(*range(341)))

# 339 headings, of which the first three have no BT, and 2,362 BT lines: 32,768 bytes. Heading i has as many of those right before it as are needed.
short = [chr(97 + i // 26) + chr(97 + i % 26) for i in range(339)]


def many(count):
    hops, left = [], count
    for i in range(3, 339):
        take = min(i, 16, -(-left // (339 - i)))
        hops += [(short[i], short[i - 1 - j]) for j in range(take)]
        left -= take
    assert left == 0
    return listing(hops, short)


levels = [0, 0, 0] + list(range(1, 337))
assert size(339, 2362, 3) == 32768
good('a book of 32,768 bytes', many(2362), 32768, levels)
case('a book of 32,768 bytes, room one short', many(2362), (43, 0), levels, room=32767)
refused('a book of 32,780 bytes', many(2363), 43, 0)

# ---- by chance
chance = random.Random(56)
for k in range(45):
    count = chance.randrange(1, 7)
    these = chance.sample([chr(c) for c in range(97, 123)], count)
    hops = [(chance.choice(these), chance.choice(these)) for _ in range(chance.randrange(0, 2 * count + 1))]
    hops = [h for h in hops if h[0] != h[1] or chance.random() < 0.1]
    text = listing(hops, these)
    if k % 3 == 0:
        lines = text.splitlines(keepends=True)
        act, at = chance.randrange(4), chance.randrange(len(lines))
        if act == 0:
            del lines[at]
        elif act == 1:
            lines.insert(chance.randrange(len(lines) + 1), lines[at])
        elif act == 2:
            lines[at] = lines[at].replace('BT', 'NT') if 'BT' in lines[at] else lines[at].replace('NT', 'BT')
        else:
            lines[at] = lines[at][:-1] + chance.choice(['', ' \n', '\r\n', '\n\n'])
        text = ''.join(lines)
    case(f'by chance, {k}', text, None, None, room=chance.choice([32768, 32768, 60]), row=chance.choice([400, 400, 3]))

# ---- the files
if '--short' in sys.argv:
    rows = [r for r in rows if len(r[1]) <= 8000]
table = b''
for what, given, book, saved, room, row in rows:
    table += room.to_bytes(2, 'big') + row.to_bytes(2, 'big') + len(given).to_bytes(4, 'big') + given
assert len(table) <= 1048576

target = os.environ.get('CARGO_TARGET_DIR') or os.path.join(os.environ.get('TMPDIR', '/tmp'), 'independent-target')
subprocess.run(['cargo', 'build', '--quiet', '--release', '--offline'], cwd=os.path.join(repository, 'independent'), check=True,
               env=dict(os.environ, CARGO_TARGET_DIR=target))
printed = subprocess.run([os.path.join(target, 'release', 'independent'), 'listed'], input=table, stdout=subprocess.PIPE, check=True).stdout.decode()
lines = printed.splitlines()
assert len(lines) == 2 * len(rows)
untouched = 0
for _ in range(33000):
    untouched = (untouched * 31 + 170) % 2 ** 32
wrong = 0
for k, (what, given, book, saved, room, row) in enumerate(rows):
    l, o = lines[2 * k], lines[2 * k + 1]
    hand_l, hand_o = l, o
    if isinstance(book, tuple):
        hand_l = f'L {book[0]} {book[1]} 0 {untouched}'
    elif book is not None:
        hand_l = f'L 0 0 {book} {l.split()[-1]}'
    if isinstance(saved, tuple):
        hand_o = f'O {saved[0]} {saved[1]} 0 0:'
    elif saved is not None and saved[0] == 'circle':
        hand_o = f"O 0 0 {o.split()[3]} {len(saved) - 1}: {' '.join(map(str, saved[1:]))}"
    elif saved is not None:
        hand_o = f"O 0 0 {len(saved)} 0: {' '.join(map(str, saved))}"
    if (l, o) != (hand_l, hand_o):
        wrong += 1
        print(what, 'by hand  ' + hand_l, 'evaluator ' + l, 'by hand  ' + hand_o, 'evaluator ' + o, sep='\n')
if wrong:
    sys.exit(f'{wrong} rows differ; nothing is written')
folders = [word for word in sys.argv[1:] if word != '--short']
folder = folders[0] if folders else os.path.join(repository, 'crates', 'listed')
os.makedirs(folder, exist_ok=True)
with open(os.path.join(folder, 'stdin'), 'wb') as f:
    f.write(table)
with open(os.path.join(folder, 'stdout'), 'w') as f:
    f.write(printed)
print(len(rows), 'rows,', len(table), 'bytes')
