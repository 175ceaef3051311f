#!/usr/bin/env python3
"""Writes crates/writings/stdin and stdout: a table of rows from the editors' desk, and what the book writer gives for each (request L1).

A row of stdin: a field of two bytes for the room lent and a label; the numbers of the symbols' rows; the numbers of the trees' rows. Each field opens
with its length in two bytes. Numbers stand in blocks: how often the block is repeated, how many numbers it has, these numbers, two bytes each. Its line of stdout: the label, the three numbers handed back (number, row, bytes), and a checksum of
32,800 bytes that are 170 before; the first so many of them are the room lent. A checksum begins at 0 and becomes (c * 31 + v) % 2^32 for each byte.

stdout is worked out here, from document 01 and request L1, by a reader of the rows themselves: it makes no bytes to find a fault. Rows that are a book
are then laid out as bytes. Beside each row that is written by hand (all but those changed at random) stands the result that is expected; the script asserts it.

usage: tools/writing_cases.py
"""
import os
import random

top = os.path.join(os.path.dirname(os.path.abspath(__file__)), '..', 'crates', 'writings')
BYTES = 32800
rows = []


# ---- a reader of rows

class Fault(Exception):
    pass


def split(numbers):
    """The rows, and whether each is whole."""
    out, p = [], 0
    while p < len(numbers):
        n = numbers[p]
        out.append((numbers[p + 1:p + 1 + n], p + 1 + n <= len(numbers)))
        p += 1 + n
    return out


def expression(row, p, symbols, variables, sort, left):
    """Reads an expression of a sort at p: the place behind it. left[0] is how many nodes are left."""
    code = row[p] if p < len(row) else None
    if code is None or code > 3:
        raise Fault
    if code == 0:
        if p + 1 >= len(row) or row[p + 1] >= len(variables) or variables[row[p + 1]] != sort:
            raise Fault
        return p + 2
    if left[0] == 0:
        raise Fault
    left[0] -= 1
    if code == 3:
        return p + 1
    if code == 2:
        return expression(row, expression(row, p + 1, symbols, variables, sort, left), symbols, variables, sort, left)
    if p + 1 >= len(row) or row[p + 1] >= len(symbols) or symbols[row[p + 1]][1] != sort:
        raise Fault
    f, p = row[p + 1], p + 2
    for s in symbols[f][2:]:
        p = expression(row, p, symbols, variables, s, left)
    return p


def tree(row, p, symbols, variables, done, sort):
    code = row[p] if p < len(row) else None
    if code is None or code > 2:
        raise Fault
    if code == 0:
        return p + 1
    if code == 1:
        return expression(row, p + 1, symbols, variables, sort, [64])
    if p + 1 >= len(row):
        raise Fault
    x = row[p + 1]
    if x >= len(variables) or x in done:
        raise Fault
    cases = [s[2:] for s in symbols if s[0] == 0 and s[1] == variables[x]]
    if any(len(variables) + len(c) > 32 for c in cases):
        raise Fault
    p += 2
    for c in cases:
        p = tree(row, p, symbols, variables + list(c), done | {x}, sort)
    return p


def symbol_ok(row, whole, before):
    return whole and before < 1024 and 2 <= len(row) <= 10 and row[0] <= 1 and all(s <= 63 for s in row[1:])


def expr_bytes(row, p, arity):
    """The bytes of the expression at p of a good row, and the place behind it."""
    if row[p] == 0:
        return bytes(row[p:p + 2]), p + 2
    if row[p] == 3:
        return b'\x03', p + 1
    if row[p] == 2:
        a, q = expr_bytes(row, p + 1, arity)
        b, r = expr_bytes(row, q, arity)
        return b'\x02' + a + b, r
    f = row[p + 1]
    out, p = b'\x01' + f.to_bytes(2, 'big'), p + 2
    for _ in range(arity(f)):
        b, p = expr_bytes(row, p, arity)
        out += b
    return out, p


def loose_size(row, arity):
    """How many bytes a row's numbers take, good or not: one each, two for a symbol, which stands behind code 1 of an expression."""
    size, due, follows = 0, 0, None
    for n in row:
        size += 2 if follows == 'symbol' else 1
        if follows:
            due += arity(n) if follows == 'symbol' else 0
            follows = None
        elif due == 0:
            due, follows = (1, None) if n == 1 else (0, 'variable') if n == 2 else (0, None)
        else:
            due -= 1
            follows = {0: 'variable', 1: 'symbol'}.get(n)
            due += 2 if n == 2 else 0
    return size


def tree_bytes(row, arity):
    out, p = b'', 0
    while p < len(row):
        if row[p] == 2:
            out, p = out + bytes(row[p:p + 2]), p + 2
        elif row[p] == 0:
            out, p = out + b'\x00', p + 1
        else:
            b, p = expr_bytes(row, p + 1, arity)
            out += b'\x01' + b
    return out


def write(symbol_numbers, tree_numbers):
    """The bytes, or the number of the row at fault."""
    of_symbols, of_trees = split(symbol_numbers), split(tree_numbers)
    count = len(of_symbols) + len(of_trees)
    if 3 + len(symbol_numbers) > 32768:
        return count
    symbols = []
    for k, (row, whole) in enumerate(of_symbols):
        if not symbol_ok(row, whole, k):
            return k
        symbols.append(row)
    if not symbols:
        return 0

    def arity(f):
        return len(symbols[f]) - 2 if f < len(symbols) else 0

    if 3 + len(symbol_numbers) + 2 + sum(2 + loose_size(row, arity) for row, _ in of_trees) > 32768:
        return count
    operations = [s for s in symbols if s[0] == 1]
    for k, (row, whole) in enumerate(of_trees):
        if k >= len(operations) or not whole:
            return len(symbols) + k
        try:
            if tree(row, 0, symbols, list(operations[k][2:]), frozenset(), operations[k][1]) != len(row):
                return len(symbols) + k
        except Fault:
            return len(symbols) + k
    if len(of_trees) < len(operations):
        return count

    def part(body):
        return len(body).to_bytes(2, 'big') + body

    return (b'\x01' + part(b''.join(bytes([len(s)]) + bytes(s) for s in symbols))
            + part(b''.join(part(tree_bytes(row, arity)) for row, _ in of_trees)))


def outcome(symbol_numbers, tree_numbers, room):
    w = write(symbol_numbers, tree_numbers)
    memory = bytes([170]) * BYTES
    if isinstance(w, int):
        return (50, w, 0), memory
    if len(w) > room:
        return (51, 0, 0), memory
    return (0, 0, len(w)), w + memory[len(w):]


def checksum(memory):
    c = 0
    for v in memory:
        c = (c * 31 + v) % 4294967296
    return c


def blocks(rows_of, cut):
    """Blocks of equal rows; the last row is a block of its own if numbers of it are missing."""
    out, k = b'', 0
    while k < len(rows_of):
        row, j = [len(rows_of[k])] + list(rows_of[k]), k
        while j < len(rows_of) and rows_of[j] == rows_of[k] and not (cut and j + 1 == len(rows_of) and j > k):
            j += 1
        if cut and j == len(rows_of):
            row = row[:len(row) - cut]
        out += b''.join(n.to_bytes(2, 'big') for n in [j - k, len(row)] + row)
        k = j
    return out


def case(label, expected, symbol_rows, tree_rows, room=BYTES, cut_symbols=0, cut_trees=0):
    """Rows without their opening counts; so many numbers of the last symbol's or tree's row are missing."""
    s = [n for row in symbol_rows for n in [len(row)] + list(row)]
    t = [n for row in tree_rows for n in [len(row)] + list(row)]
    s, t = s[:len(s) - cut_symbols], t[:len(t) - cut_trees]
    result, memory = outcome(s, t, room)
    assert expected is None or result == expected, (label, result, expected)
    rows.append((label, room, blocks(symbol_rows, cut_symbols), blocks(tree_rows, cut_trees), result, memory))


# ---- the small book
FALSE, TRUE, XOR, LOOP, DUP = range(5)
S = [[0, 0], [0, 0], [1, 0, 0, 0], [1, 0], [1, 0, 0]]
T = [[2, 0, 1, 0, 1, 2, 1, 1, 1, TRUE, 1, 1, FALSE], [1, 1, LOOP], [1, 1, XOR, 0, 0, 0, 0]]
SMALL = bytes.fromhex('01001202000002000004010000000201000301000000'
                      '21000F020001000102010101000101010000000401010003000801010002' '00000000')
small_numbers = ([n for r in S for n in [len(r)] + r], [n for r in T for n in [len(r)] + r])
assert write(*small_numbers) == SMALL and len(SMALL) == 56
case('the small book', (0, 0, 56), S, T)
case('the small book, room to the last byte', (0, 0, 56), S, T, room=56)
case('the small book, room one short', (51, 0, 0), S, T, room=55)
case('the small book, no room', (51, 0, 0), S, T, room=0)
case('50 comes before 51', (50, 0, 0), [[2, 0]], [], room=0)

# ---- symbols
case('no rows at all: the count of rows', (50, 0, 0), [], [])
case('no symbols, a tree: its row', (50, 0, 0), [], [[0]])
case('a symbol of one number', (50, 1, 0), [[0, 0], [0]], [])
case('a symbol of no numbers', (50, 1, 0), [[0, 0], []], [])
case('a symbol of 10 numbers: 8 arguments', (0, 0, 16), [[0, 0] + [0] * 8], [])
case('a symbol of 11 numbers', (50, 0, 0), [[0, 0] + [0] * 9], [])
case('a symbol of 300 numbers', (50, 0, 0), [[0] * 300], [])
case('kind 2', (50, 2, 0), [[0, 0], [0, 0], [2, 0]], [])
case('kind 256, whose low byte is 0', (50, 0, 0), [[256, 0]], [])
case('sort 63', (0, 0, 8), [[0, 63]], [])
case('sort 64', (50, 0, 0), [[0, 64]], [])
case('sort 256', (50, 0, 0), [[0, 256]], [])
case('argument sort 64', (50, 0, 0), [[0, 0, 64]], [])
case('a symbol with a number missing', (50, 1, 0), [[0, 0], [0, 0, 5]], [], cut_symbols=1)
case('a symbol with all but its count missing', (50, 1, 0), [[0, 0], [0, 0]], [], cut_symbols=2)
case('1,024 symbols', (0, 0, 3077), [[0, 0]] * 1024, [])
case('the 1,025th symbol', (50, 1024, 0), [[0, 0]] * 1025, [])
case('a bad symbol goes before a bad tree', (50, 1, 0), [[1, 0], [3, 0]], [[9]])

# ---- trees
one = [[0, 0], [1, 0, 0]]  # symbol 0, a constructor; symbol 1, an operation of one argument
case('an exempt', (0, 0, 15), one, [[0]])
case('a tree code that is not there', (50, 2, 0), one, [[3]])
case('a tree code 256, whose low byte is 0', (50, 2, 0), one, [[256]])
case('an empty row of a tree', (50, 2, 0), one, [[]])
case('a rule without an expression', (50, 2, 0), one, [[1]])
case('an expression code that is not there', (50, 2, 0), one, [[1, 4]])
case('a variable', (0, 0, 17), one, [[1, 0, 0]])
case('a variable that is not there', (50, 2, 0), one, [[1, 0, 1]])
case('a variable 256, whose low byte is 0', (50, 2, 0), one, [[1, 0, 256]])
case('a variable code without its variable', (50, 2, 0), one, [[1, 0]])
case('a symbol that is not there', (50, 2, 0), one, [[1, 1, 2]])
case('symbol 65535', (50, 2, 0), one, [[1, 1, 65535]])
case('an apply without its symbol', (50, 2, 0), one, [[1, 1]])
case('a branch', (0, 0, 17), one, [[2, 0, 0]])
case('a branch with a case missing', (50, 2, 0), one, [[2, 0]])
case('a branch without its variable', (50, 2, 0), one, [[2]])
case('a number left over in a row', (50, 2, 0), one, [[0, 0]])
case('a wrong sort', (50, 3, 0), [[0, 0], [0, 1], [1, 0]], [[1, 1, 1]])
case('a variable branched on twice', (50, 2, 0), one, [[2, 0, 2, 0, 0]])


def comb(count):
    """A row of choices with a fail on each left and at the end: 2 * count + 1 nodes, as many numbers and as many bytes."""
    return [2, 3] * count + [3]


wrap = [[0, 0, 0], [1, 0]]  # symbol 0, a constructor of one argument; symbol 1, an operation
case('64 nodes in an expression', (0, 0, 3 + 4 + 3 + 2 + 2 + 1 + 3 + 63), wrap, [[1, 1, 0] + comb(31)])
case('65 nodes in an expression', (50, 2, 0), wrap, [[1, 1, 0, 1, 0] + comb(31)])
eights = [[0, 1] + [1] * 8, [1, 0] + [1] * 8]  # a constructor that binds eight, an operation of eight arguments
case('32 variables on a path', (0, 0, 3 + 11 + 11 + 2 + 2 + 7), eights, [[2, 0, 2, 1, 2, 2, 0]])
case('a branch past 32 variables', (50, 2, 0), eights, [[2, 0, 2, 1, 2, 2, 2, 3, 0]])
case('a branch on a sort without constructors', (0, 0, 3 + 4 + 2 + 2 + 2), [[1, 0, 5]], [[2, 0]])
case('symbol 299, whose two bytes are 1 and 43', (0, 0, 3 + 900 + 3 + 2 + 2 + 4), [[0, 0]] * 300 + [[1, 0]], [[1, 1, 299]])
case('a tree of 302 bytes', (0, 0, 3 + 900 + 4 + 2 + 2 + 302), [[0, 0]] * 300 + [[1, 0, 0]], [[2, 0] + [0] * 300])
case('a tree missing: the count of rows', (50, 2, 0), one, [])
two = [[0, 0], [1, 0], [1, 0]]
case('the second tree missing: the count of rows', (50, 4, 0), two, [[0]])
case('one tree too many: its row', (50, 5, 0), two, [[0], [0], [0]])
case('two trees too many: the first of them', (50, 5, 0), two, [[0], [0], [0], [0]])
case('a row that ends too soon, and one tree too many: that row', (50, 4, 0), two, [[0], [1], [0]])
case('a row that ends too soon, the next missing: that row', (50, 3, 0), two, [[1]])
case('a row with a number missing', (50, 4, 0), two, [[0], [1, 3]], cut_trees=1)
case('a row with a number missing that its tree does not need', (50, 4, 0), two, [[0], [0, 7]], cut_trees=1)
case('a row that says 65,535 numbers', (50, 4, 0), two, [[0], [0] * 65535], cut_trees=65534)
case('a row that ends too soon, behind it one with a number missing', (50, 3, 0), two, [[1], [0, 7]], cut_trees=1)

# ---- size: an operation takes 3 bytes, its tree 2 for the length, 1 for the code and so many for the comb: 69 with a comb of 63, 57 with one of 51
full = [[1, 0]] * 475, [[1] + comb(31)] * 474 + [[1] + comb(25)]
case('a book of 32,768 bytes', (0, 0, 32768), *full)
case('a book of 32,768 bytes, room one short', (51, 0, 0), *full, room=32767)
case('a book of 32,769 bytes: the count of rows', (50, 950, 0), full[0][:474] + [[1, 0, 0]], full[1])
case('a book of 32,769 bytes, its first tree at fault: the count of rows', (50, 950, 0), full[0][:474] + [[1, 0, 0]], [[9] + comb(31)] + full[1][1:])
case('a book of 32,769 bytes, a number of its last row missing: the count of rows', (50, 950, 0), full[0][:474] + [[1, 0, 0, 0]], full[1], cut_trees=1)
case('a book of 32,769 bytes, a symbol at fault: its row', (50, 474, 0), full[0][:474] + [[1, 0, 64]], full[1])
case('symbols of 32,766 bytes: the 1,025th', (50, 1024, 0), [[0, 0]] * 10921, [])
case('symbols of 32,769 bytes: the count of rows', (50, 10922, 0), [[0, 0]] * 10922, [])
case('trees of 33,001 numbers: the count of rows', (50, 603, 0), one, [[0] * 54] * 600 + [[]])

# ---- rows changed at random, from three books
chance = random.Random(20261115)
books = [(S, T), (eights + [[1, 1, 0]], [[2, 7, 1, 1, 1] + [0, 8] * 8, [2, 0]]),
         (wrap + [[1, 0, 0, 0]], [[1, 1, 0, 1, 1], [2, 0, 2, 2, 1, 2, 0, 2, 1, 0, 0, 3]])]
for symbol_rows, tree_rows in books:
    case('a book to change at random', None, symbol_rows, tree_rows)
for k in range(300):
    symbol_rows, tree_rows = chance.choice(books)
    both = [list(r) for r in symbol_rows], [list(r) for r in tree_rows]
    for _ in range(chance.choice([1, 1, 1, 2, 3])):
        part = chance.choice(both)
        act = chance.randrange(6)
        at = chance.randrange(len(part)) if part else 0
        if not part or act == 0:
            part.insert(at, chance.choice([[0], [0, 0], [1, 0], [1, 3], []]))
        elif act == 1:
            del part[at]
        elif act == 2 and part[at]:
            del part[at][chance.randrange(len(part[at]))]
        elif act == 3:
            part[at].insert(chance.randrange(len(part[at]) + 1), chance.choice([0, 1, 2, 3, 4, 63, 64, 255, 256]))
        elif part[at]:
            part[at][chance.randrange(len(part[at]))] = chance.choice([0, 0, 1, 1, 2, 3, 4, 5, 63, 64, 255, 256, 65535])
    cuts = [chance.choice([0] * 9 + [1]), chance.choice([0] * 9 + [1])]
    case(f'changed at random, {k}', None, *both, cut_symbols=cuts[0], cut_trees=cuts[1])

seen = [r[4] for r in rows[-300:]]
assert sum(r[0] == 0 for r in seen) >= 15 and len({r[1] for r in seen if r[0] == 50}) >= 8


def field(body):
    return len(body).to_bytes(2, 'big') + body


with open(os.path.join(top, 'stdin'), 'wb') as f:
    for label, room, s, t, result, memory in rows:
        f.write(field(room.to_bytes(2, 'big') + label.encode()) + field(s) + field(t))
    size = f.tell()
with open(os.path.join(top, 'stdout'), 'w') as f:
    for label, room, s, t, result, memory in rows:
        f.write(f"{label}: {' '.join(map(str, result))}; bytes {checksum(memory)}\n")
assert size <= 65536
print(f'{len(rows)} rows, {size} bytes')
