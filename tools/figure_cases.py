#!/usr/bin/env python3
"""Writes crates/figured/stdin and stdout: a table of answer books, and the index figures of each row of it (request L13).

A row of stdin: a field of two bytes, how many totals are lent, and a label; the totals before, four bytes each; the books, each behind its four-byte
length. Each field opens with its length in two bytes. There are 1,100 totals; those that are not given are 7. Its line of stdout: the label, number and
place, the first five totals after it, and a checksum of all: it begins at 0 and becomes (c * 31 + v) % 2^32 for each total.

stdout is worked out here, from document 01 and requests L3 and L13. Beside each row that is written by hand (all but those by chance) stand the number and place
that are expected, and the first five totals where it is not refused; the script asserts them. The independent evaluator prints
the same for this table (`independent figured < crates/figured/stdin`).

usage: tools/figure_cases.py
"""
import os
import random

top = os.path.join(os.path.dirname(os.path.abspath(__file__)), '..', 'crates', 'figured')
TOTALS = 1100
rows = []


class Refused(Exception):
    pass


def two(n):
    return n.to_bytes(2, 'big')


def answer(symbols, decisions=(), question=None):
    body = (b'' if question is None else two(question)) + two(len(symbols)) + b''.join(two(f) for f in symbols) + b''.join(two(d) for d in decisions)
    return two(len(body)) + body


def book(*answers, version=1):
    body = bytes([version]) + b''.join(answers)
    return len(body).to_bytes(4, 'big') + body


def word(b, p):
    return b[p] * 256 + b[p + 1]


def figures(b, row):
    """The totals after it; Refused(number, place) if it is refused."""
    row, p = list(row), 0
    while p < len(b):
        if len(b) < p + 4 or int.from_bytes(b[p:p + 4], 'big') in (0,) or len(b) < p + 4 + int.from_bytes(b[p:p + 4], 'big'):
            raise Refused(60, p)
        e, version = p + 4 + int.from_bytes(b[p:p + 4], 'big'), b[p + 4]
        if version not in (1, 2):
            raise Refused(60, p + 4)
        p += 5
        while p < e:
            if e < p + 2 or e < p + 2 + word(b, p):
                raise Refused(60, p)
            rest, at = b[p + 2:p + 2 + word(b, p)], p + 2
            if version == 2:
                if len(rest) < 2:
                    raise Refused(60, p)
                rest, at = rest[2:], at + 2
            if len(rest) < 2 or len(rest) % 2 or word(rest, 0) == 0 or len(rest) < 2 + 2 * word(rest, 0):
                raise Refused(60, p)
            numbers = [word(rest, k) for k in range(2, len(rest), 2)]
            symbols, decisions = numbers[:word(rest, 0)], [d // 2 for d in numbers[word(rest, 0):]]
            for k, f in enumerate(symbols):
                here = at + 2 + 2 * k
                if f in symbols[:k]:
                    continue
                if f >= len(row):
                    raise Refused(61, here)
                if row[f] == 2 ** 32 - 1:
                    raise Refused(62, here)
                row[f] += 1
            if any(c >= 256 for c in decisions) or any(a >= b for a, b in zip(decisions, decisions[1:])):
                raise Refused(60, p)
            p += 2 + word(b, p)
    return row


def case(label, expected, books, given=(0, 0, 0, 0, 0), lent=5, totals_after=None):
    totals = list(given) + [7] * (TOTALS - len(given))
    try:
        after, result = figures(books, totals[:lent]) + totals[lent:], (0, 0)
    except Refused as r:
        after, result = totals, r.args
    assert expected is None or result == expected, (label, result, expected)
    assert expected != (0, 0) or tuple(after[:5]) == totals_after, (label, after[:5])
    rows.append((label, lent, given, books, result, after))


FALSE, TRUE, PAIR = 0, 1, 2
d = book(answer([FALSE], [0]), answer([FALSE], [1]))  # what document 01's D writes
case('no books', (0, 0), b'', totals_after=(0, 0, 0, 0, 0))
case('D: False in two answers', (0, 0), d, totals_after=(2, 0, 0, 0, 0))
case('D three times', (0, 0), d * 3, totals_after=(6, 0, 0, 0, 0))
case('D on other totals', (0, 0), d, given=(5, 6, 7, 8, 9), totals_after=(7, 6, 7, 8, 9))
case('a book without answers', (0, 0), book(), totals_after=(0, 0, 0, 0, 0))
case('a symbol twice in one answer counts once', (0, 0), book(answer([PAIR, TRUE, TRUE])), totals_after=(0, 1, 1, 0, 0))
case('the same symbol in two answers counts twice', (0, 0), book(answer([PAIR, TRUE, FALSE]), answer([TRUE])), totals_after=(1, 2, 1, 0, 0))
case('version 2, with the questions\' numbers', (0, 0), book(answer([TRUE], [0, 3], question=0), answer([FALSE], [], question=31), version=2), totals_after=(1, 1, 0, 0, 0))
case('both versions, one behind the other', (0, 0), d + book(answer([TRUE], question=5), version=2) + d, totals_after=(4, 1, 0, 0, 0))
case('version 2, question 65,535: any number', (0, 0), book(answer([TRUE], question=65535), answer([TRUE], question=32), version=2), totals_after=(0, 2, 0, 0, 0))
case('version 0', (60, 4), book(version=0))
case('version 3', (60, 4), book(answer([TRUE]), version=3))
case('version 3 in the second book', (60, len(d) + 4), d + book(version=3))
case('a length of three bytes', (60, 0), b'\0\0\0')
case('a book of no bytes', (60, 0), b'\0\0\0\0')
case('a book cut short', (60, 0), d[:-1])
case('the second book cut short', (60, len(d)), d + d[:-1])
case('one byte behind the books', (60, len(d)), d + b'\0')
case('a record of one byte', (60, 5), book(b'\0'))
case('a record that runs past its book', (60, 5), book(answer([TRUE])[:-1]))
case('a second record that runs past its book', (60, 5 + 6), book(answer([TRUE]), answer([TRUE])[:-1]))
case('a record of no bytes', (60, 5), book(two(0)))
case('a record without its symbol count', (60, 5), book(two(1) + b'\0'))
case('a record of no symbols', (60, 5), book(answer([])))
case('a record with a symbol missing', (60, 5), book(two(4) + two(2) + two(TRUE)))
case('an odd byte in a record', (60, 5), book(two(5) + two(1) + two(TRUE) + b'\0'))
case('decisions in rising order', (0, 0), book(answer([TRUE], [0, 3, 511])), totals_after=(0, 1, 0, 0, 0))
case('decision 512: there is no choice 256', (60, 5), book(answer([TRUE], [512])))
case('decisions falling', (60, 5), book(answer([TRUE], [2, 1])))
case('a choice decided twice', (60, 5), book(answer([TRUE], [2, 3])))
case('a choice decided twice the same', (60, 5), book(answer([TRUE], [2, 2])))
case('the last symbol of the row', (0, 0), book(answer([4])), totals_after=(0, 0, 0, 0, 1))
case('a symbol past the row', (61, 9), book(answer([5])))
case('a symbol past the row, the second', (61, 11), book(answer([4, 5])))
case('a row of no totals', (61, 9), book(answer([0])), lent=0)
case('symbol 1,023', (0, 0), book(answer([1023])), lent=1100, totals_after=(0, 0, 0, 0, 0))
case('symbol 1,024, for which the row has a total', (0, 0), book(answer([1024])), lent=1100, totals_after=(0, 0, 0, 0, 0))
case('symbols 1,024 to 1,099', (0, 0), book(answer(range(1024, 1100))), lent=1100, totals_after=(0, 0, 0, 0, 0))
case('symbol 1,100 is past the row', (61, 11), book(answer([1099, 1100])), lent=1100)
case('symbol 1,024 and a row of 1,024', (61, 9), book(answer([1024])), lent=1024)
case('symbol 1,024 and a short row', (61, 9), book(answer([1024])))
case('symbol 65,535', (61, 13), book(answer([1, 1023, 65535])), lent=1100)
top32 = 2 ** 32 - 1
case('a total up to 32 bits', (0, 0), book(answer([TRUE])), given=(0, top32 - 1, 0, 0, 0), totals_after=(0, top32, 0, 0, 0))
case('a total past 32 bits', (62, 9), book(answer([TRUE])), given=(0, top32, 0, 0, 0))
case('a total past 32 bits, in the second answer', (62, 15), book(answer([TRUE]), answer([TRUE])), given=(0, top32 - 1, 0, 0, 0))
case('a total at 32 bits that is not added to', (0, 0), book(answer([FALSE])), given=(0, top32, 0, 0, 0), totals_after=(1, top32, 0, 0, 0))
case('twice in one answer, a total at its last', (0, 0), book(answer([TRUE, TRUE])), given=(0, top32 - 1, 0, 0, 0), totals_after=(0, top32, 0, 0, 0))
case('61 before a later 60', (61, 9), book(answer([5])) + b'\0')
case('60 before a later 61', (60, 5), book(two(0)) + book(answer([5])))
case('62 before a later 61', (62, 9), book(answer([TRUE, 5])), given=(0, top32, 0, 0, 0))
case('61 before a fault of the decisions', (61, 9), book(answer([5], [2, 1])))
case('61 at the second symbol, before decision 512', (61, 11), book(answer([4, 5], [512])))
case('62 before a fault of the decisions', (62, 9), book(answer([TRUE], [512])), given=(0, top32, 0, 0, 0))
case('62 at a first standing, before a fault of the decisions', (62, 13), book(answer([PAIR, PAIR, TRUE], [3, 2])), given=(0, top32, 0, 0, 0))
case('an odd byte before 61', (60, 5), book(two(5) + two(1) + two(5) + b'\0'))
case('a symbol missing before 61', (60, 5), book(two(4) + two(2) + two(5)))
case('62 before 61, in symbol order', (62, 11), book(answer([PAIR, TRUE, 5])), given=(0, top32, 0, 0, 0))
case('61 before 62, in symbol order', (61, 11), book(answer([PAIR, 5, TRUE])), given=(0, top32, 0, 0, 0))
# ---- what was added before a refusal is taken back
case('a fault of the decisions behind a good answer', (60, 13), book(answer([PAIR, TRUE]), answer([TRUE, FALSE, TRUE], [1, 1])), given=(1, 2, 3, 4, 5))
case('61 behind good answers and a good book', (61, len(d) + 19), d + book(answer([TRUE, TRUE]), answer([FALSE, 5])), given=(1, 2, 3, 4, 5))
case('62 behind good books of both versions', (62, len(d) + 22), d + book(answer([PAIR], question=9), version=2) + book(answer([PAIR])), given=(1, 2, top32 - 1, 4, 5))
case('a book cut short behind good ones', (60, 2 * len(d)), d * 2 + d[:-1], given=(top32 - 4, 2, 3, 4, 5))
case('a book of no bytes behind good ones', (60, 2 * len(d)), d * 2 + bytes(4) + d, given=(1, 2, 3, 4, 5))
case('version 3 behind symbols 1,024 to 1,099', (60, 5 + 156 + 4), book(answer(range(1024, 1100))) + book(version=3), lent=1100)

# ---- books in two orders; where one of them is refused, both are, at other places
one, other = book(answer([PAIR, TRUE, FALSE])), book(answer([TRUE]), answer([4], [7]))
case('two books', (0, 0), one + other, totals_after=(1, 2, 1, 0, 1))
case('the same two in the other order', (0, 0), other + one, totals_after=(1, 2, 1, 0, 1))
case('two books, a total past 32 bits in the second', (62, len(one) + 9), one + other, given=(0, top32 - 1, 0, 0, 0))
case('in the other order in the second too', (62, len(other) + 11), other + one, given=(0, top32 - 1, 0, 0, 0))

# ---- long books and records
case('a book of 6,001 bytes', (0, 0), book(*[answer([TRUE])] * 1000), totals_after=(0, 1000, 0, 0, 0))
case('an answer of 4,096 symbols', (0, 0), book(answer([PAIR, FALSE] * 2048)), totals_after=(1, 0, 1, 0, 0))
case('all 256 choices decided', (0, 0), book(answer([TRUE], [2 * c + c % 2 for c in range(256)])), totals_after=(0, 1, 0, 0, 0))
case('version 2, a record of one byte', (60, 5), book(two(1) + b'\0', version=2))
case('version 2, a record that ends behind the question', (60, 5), book(two(2) + two(3), version=2))
case('version 2, a record that ends in the symbol count', (60, 5), book(two(3) + two(3) + b'\0', version=2))

# ---- books by chance, and the same with a byte changed, cut or added
chance = random.Random(13)


def by_chance():
    version = chance.choice([1, 1, 2])
    answers = []
    for _ in range(chance.randrange(4)):
        symbols = [chance.randrange(6) if chance.random() < 0.2 else chance.randrange(5) for _ in range(chance.randrange(1, 5))]
        decisions = [2 * c + chance.randrange(2) for c in sorted(chance.sample(range(256), chance.randrange(4)))]
        answers.append(answer(symbols, decisions, chance.choice([0, 1, 31, 32, 65535]) if version == 2 else None))
    return book(*answers, version=version)


for k in range(400):
    books = b''.join(by_chance() for _ in range(chance.randrange(1, 4)))
    for _ in range(chance.choice([0, 0, 1])):
        at = chance.randrange(len(books))
        books = chance.choice([books[:at], books[:at] + bytes([chance.choice([0, 1, 2, 3, 255])]) + books[at + 1:], books[:at] + b'\0' + books[at:]])
    given = [chance.choice([0, 3, top32 - 2, top32 - 1, top32]) if chance.random() < 0.1 else chance.randrange(10) for _ in range(5)]
    case(f'by chance, {k}', None, books, given=given, lent=chance.choice([5, 5, 5, 4]))
seen = [r[4][0] for r in rows[-400:]]
assert all(seen.count(n) >= 20 for n in (0, 60, 61, 62)), [seen.count(n) for n in (0, 60, 61, 62)]


def field(body):
    return two(len(body)) + body


def checksum(totals):
    c = 0
    for v in totals:
        c = (c * 31 + v) % 2 ** 32
    return c


with open(os.path.join(top, 'stdin'), 'wb') as f:
    for label, lent, given, books, result, after in rows:
        f.write(field(two(lent) + label.encode()) + field(b''.join(t.to_bytes(4, 'big') for t in given)) + field(books))
    size = f.tell()
with open(os.path.join(top, 'stdout'), 'w') as f:
    for label, lent, given, books, result, after in rows:
        f.write(f"{label}: {result[0]} {result[1]}; {' '.join(map(str, after[:5]))}; all {checksum(after)}\n")
assert size <= 131072
print(f'{len(rows)} rows, {size} bytes')
