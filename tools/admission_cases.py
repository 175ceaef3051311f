#!/usr/bin/env python3
"""Writes crates/admissions/stdin and stdout: a table of books and questions, and what document 01 says of each.

Each row: a label; a book and a question as bytes; the number and the place that document 01 gives (0 0: admitted), worked out by
hand from its sections "The book and the question, as bytes" and "Numbers returned", and from requests L8 and L9 for version 2; never read off
the program.
The program prints number, place and label of each row.

usage: tools/admission_cases.py            (writes both files)
"""
import os

top = os.path.join(os.path.dirname(os.path.abspath(__file__)), '..', 'crates', 'admissions')
rows = []


def case(label, book, question, number, place):
    rows.append((label, bytes(book), bytes(question), number, place))


def hx(text):
    return bytes.fromhex(text.replace(' ', ''))


def two(n):
    return bytes([n // 256, n % 256])


def part(body):
    return two(len(body)) + body


def symbol(kind, sort, *arguments):
    return bytes([2 + len(arguments), kind, sort, *arguments])


def book(symbols, items, version=1):
    """A book of these symbols, and of one tree (bytes, its length added) for each operation."""
    return bytes([version]) + part(b''.join(symbols)) + part(b''.join(part(t) for t in items))


def asked(sort, expression, version=1):
    return bytes([version]) + part(bytes([sort]) + expression)


def apply(f, *arguments):
    return b'\x01' + two(f) + b''.join(arguments)


def choice(a, b):
    return b'\x02' + a + b


FAIL = b'\x03'


def share(sort, first, body):
    """Request L8, code 4."""
    return bytes([4, sort]) + first + body


def var(x):
    return bytes([0, x])


def leaves(n, leaf=FAIL):
    """n leaves under n - 1 choices: 2n - 1 nodes."""
    e = leaf
    for _ in range(n - 1):
        e = choice(leaf, e)
    return e


SMALL = hx('01 0012 020000 020000 0401000000 020100 03010000 0021'
           '000F 0200 010001 0201 01010001 01010000 0004 01010003 0008 0101000200000000')
D = hx('01 000B 00 010004 02 010000 010001')
assert len(SMALL) == 56

# ---- admitted
case('the small book and D', SMALL, D, 0, 0)
case('no operations: a tree part of length 0', book([symbol(0, 0)], []), asked(0, apply(0)), 0, 0)
case('a fail fits every sort, also one without symbols', SMALL, asked(63, FAIL), 0, 0)
case('a branch on a sort without constructors has no trees', book([symbol(1, 0, 9)], [hx('0200')]), asked(0, FAIL), 0, 0)
case('an operation may use a symbol numbered later', book([symbol(1, 0), symbol(0, 0)], [b'\x01' + apply(1)]), asked(0, FAIL), 0, 0)
case('a branched variable may still be used in the rule',
     book([symbol(0, 0), symbol(1, 0, 0)], [hx('0200') + b'\x01' + var(0)]), asked(0, FAIL), 0, 0)

# ---- 1: over its size, a missing byte, a length that runs past, bytes left over
case('1 empty book: no version byte', b'', D, 1, 0)
case('1 book of 32,769 bytes, though its version is wrong too', b'\x09' * 32769, D, 1, 0)
case('1 no byte of the symbol part\'s length: the book\'s end', hx('01'), D, 1, 1)
case('1 one byte of the symbol part\'s length: the book\'s end', hx('01 00'), D, 1, 2)
case('1 no tree part: the book\'s end', hx('01 0003 020000'), D, 1, 6)
case('1 one byte of the tree part\'s length', hx('01 0003 020000 00'), D, 1, 7)
case('1 no tree for an operation: the tree part\'s end', hx('01 0003 020100 0000'), D, 1, 8)
case('1 one byte of a tree\'s length: the tree part\'s end', hx('01 0003 020100 0001 00'), D, 1, 9)
case('1 no tree code: the item\'s end', hx('01 0003 020100 0002 0000'), D, 1, 10)
case('1 a rule without expression: the item\'s end', hx('01 0003 020100 0003 0001 01'), D, 1, 11)
case('1 a variable without its byte: the item\'s end', hx('01 0004 03010000 0004 0002 01 00'), D, 1, 13)
case('1 one byte of an apply\'s symbol: the item\'s end', hx('01 0003 020100 0005 0003 01 01 00'), D, 1, 13)
case('1 one byte of a symbol that cannot be there: still missing', hx('01 0003 020100 0005 0003 01 01 FF'), D, 1, 13)
case('1 a branch without its variable: the item\'s end', hx('01 0004 03010000 0003 0001 02'), D, 1, 12)
case('1 an item ends inside the part: its own end counts', hx('01 0006 020100 020100 0007 0001 01 0002 01 03'), D, 1, 14)
case('1 symbol part runs past the book: the length', hx('01 0004 020000'), D, 1, 1)
case('1 a symbol runs past its part, and its length is wrong: the lower number', hx('01 0001 01 0000'), D, 1, 3)
case('1 a symbol of length 11 runs past its part: the lower number', hx('01 0003 0B0000 0000'), D, 1, 3)
case('1 the small book cut to 55 bytes: the tree part\'s length', SMALL[:55], D, 1, 21)
case('1 an item runs past the tree part: its length', hx('01 0003 020100 0003 0002 01'), D, 1, 8)
case('1 a byte left over in an item', book([symbol(1, 0)], [hx('00 07')]), D, 1, 11)
case('1 a byte left over in the tree part', hx('01 0003 020000 0001 00'), D, 1, 8)
case('1 the small book and one byte', SMALL + b'\x00', D, 1, 56)
case('1 left over in an item before the part\'s fault behind it', hx('01 0006 020100 020100 0007 0002 0007 0009 00'), D, 1, 14)

# ---- 2: version
case('2 version 0', b'\x00' + SMALL[1:], D, 2, 0)
case('0 version 2', b'\x02' + SMALL[1:], D, 0, 0)
case('2 version 3', b'\x03' + SMALL[1:], D, 2, 0)

# ---- 3: symbols
case('3 no symbols: the part\'s length', hx('01 0000 0000'), D, 3, 1)
case('3 no symbols, before the tree part is missed', hx('01 0000'), D, 3, 1)
case('3 symbol length 0', hx('01 0001 00 0000'), D, 3, 3)
case('3 symbol length 1', hx('01 0002 0100 0000'), D, 3, 3)
case('3 symbol length 11', hx('01 000C 0B 00 00 000000000000000000 0000'), D, 3, 3)
case('0 symbol length 10: eight arguments', book([symbol(0, 0, *[0] * 8)], []), asked(0, FAIL), 0, 0)
case('3 kind 2: its byte', hx('01 0003 020200 0000'), D, 3, 4)
case('3 result sort 64: its byte', hx('01 0003 020040 0000'), D, 3, 5)
case('0 result sort 63', book([symbol(0, 63)], []), asked(63, apply(0)), 0, 0)
case('3 argument sort 64: its byte, the second argument', hx('01 0005 0400000040 0000'), D, 3, 7)
case('0 argument sort 63', book([symbol(0, 63), symbol(0, 0, 63)], []), asked(0, apply(1, apply(0))), 0, 0)
case('3 kind before sort: front to back', hx('01 0003 020240 0000'), D, 3, 4)
case('3 a bad symbol before the tree part\'s length', hx('01 0003 020200 0009'), D, 3, 4)
thousand = [symbol(0, 0)] * 1024
case('0 1,024 symbols', book(thousand, []), asked(0, apply(1023)), 0, 0)
case('3 the 1,025th symbol: its length byte', book(thousand + [symbol(0, 0)], []), asked(0, FAIL), 3, 3 + 3 * 1024)
case('1 the 1,025th symbol runs past the part: the lower number',
     b'\x01' + part(b''.join(thousand) + b'\x09') + part(b''), D, 1, 3 + 3 * 1024)

# ---- 4: codes, symbols and variables not there, branches, nodes; the one tree stands at place 10 (symbol of 3 bytes)
case('4 tree code 3', book([symbol(1, 0)], [hx('03')]), D, 4, 10)
case('4 tree code 255', book([symbol(1, 0)], [hx('FF')]), D, 4, 10)
case('4 expression code 4', book([symbol(1, 0)], [hx('01 04')]), D, 4, 11)
case('4 symbol not there: its first byte', book([symbol(1, 0)], [hx('01 01 0001')]), D, 4, 12)
case('4 symbol not there, before its sort is asked', book([symbol(1, 0)], [hx('01 01 FFFF')]), D, 4, 12)
case('4 variable not there: its byte', book([symbol(1, 0)], [hx('01 00 00')]), D, 4, 12)
case('4 variable not there behind those that are', book([symbol(1, 0, 0)], [hx('01 00 01')]), D, 4, 13)
case('4 branch on a variable not there: the variable\'s', book([symbol(1, 0)], [hx('02 00')]), D, 4, 11)
case('4 branched on twice: the variable\'s',
     book([symbol(0, 0), symbol(1, 0, 0)], [hx('02 00 02 00 00')]), D, 4, 3 + 3 + 4 + 2 + 2 + 3)
eight = [1] * 8
binder = [symbol(0, 1, *eight)]  # symbol 0, a constructor of sort 1 that binds eight
free = 3 + 11 + 11 + 2 + 2  # where the tree stands: behind two symbols of 11 bytes
case('0 32 variables on a path', book(binder + [symbol(1, 0, *eight)], [hx('02 00 02 01 02 02 01') + FAIL]), asked(0, FAIL), 0, 0)
case('4 a fourth branch would bind past 32: the variable\'s',
     book(binder + [symbol(1, 0, *eight)], [hx('02 00 02 01 02 02 02 03 01') + FAIL]), D, 4, free + 7)
one_more = [symbol(0, 1, *eight), symbol(0, 2), symbol(0, 2, 2)]
seven = [1] * 7 + [2]
case('4 33 variables, for the second constructor, before the first one\'s tree is read',
     book(one_more + [symbol(1, 0, *seven)], [hx('02 00 02 01 02 02 02 07 09 09')]), D, 4, 3 + 11 + 3 + 4 + 11 + 2 + 2 + 7)
case('0 32 variables exactly, bound by a branch with no arguments',
     book([symbol(0, 1, *eight), symbol(0, 2), symbol(1, 0, *seven)], [hx('02 00 02 01 02 02 02 07 01') + FAIL]), asked(0, FAIL), 0, 0)
case('0 64 nodes in a rule', book([symbol(1, 0, 0)], [b'\x01' + apply(0, leaves(32))]), asked(0, FAIL), 0, 0)
case('4 the 65th node of a rule: its code, the last byte',
     book([symbol(1, 0, 0)], [b'\x01' + apply(0, apply(0, leaves(32)))]), D, 4, 3 + 4 + 2 + 2 + 1 + 6 + 62)
case('4 the 65th node is an apply with a cut symbol: the node count goes first',
     book([symbol(1, 0, 0)], [b'\x01' + apply(0, apply(0, leaves(31)[:-1] + choice(FAIL, b'\x01')))]), D, 4,
     3 + 4 + 2 + 2 + 1 + 6 + 60 + 2)
case('0 each rule has 64 nodes of its own',
     book([symbol(0, 0), symbol(1, 0, 0)], [hx('0200') + b'\x01' + apply(1, leaves(32))]), asked(0, FAIL), 0, 0)
case('0 variables do not count as nodes',
     book([symbol(1, 0, 0)], [b'\x01' + apply(0, leaves(32, var(0)))]), asked(0, FAIL), 0, 0)

# ---- 5: sorts
case('5 an apply of another sort: its code', book([symbol(1, 0), symbol(0, 1)], [hx('01 01 0001')]), D, 5, 14)
case('5 a variable of another sort: its code', book([symbol(1, 0, 1)], [hx('01 00 00')]), D, 5, 12)
case('5 an argument of another sort: the argument\'s code',
     book([symbol(1, 0, 1), symbol(0, 0)], [hx('01 01 0000 01 0001')]), D, 5, 3 + 4 + 3 + 2 + 2 + 1 + 3)
case('5 under a choice: the side\'s code', book([symbol(1, 0), symbol(0, 1)], [hx('01 02 03 01 0001')]), D, 5, 16)
case('5 the sort goes before the arguments', book([symbol(1, 0, 0), symbol(0, 1, 1)], [hx('01 01 0001 04')]), D, 5, 3 + 4 + 4 + 2 + 2 + 1)
case('5 a branch binds the constructor\'s sorts',
     book([symbol(0, 1, 2), symbol(1, 0, 1)], [hx('02 00 01 00 01')]), D, 5, 3 + 4 + 4 + 2 + 2 + 3)

# ---- the question: 11 to 15
case('11 empty question', SMALL, b'', 11, 0)
case('11 question of 4,097 bytes, though its version is wrong too', SMALL, b'\x09' * 4097, 11, 0)
case('11 question of 4,096 bytes: bytes left over behind its expression', SMALL, b'\x01' + part(b'\x00\x03' + b'\x00' * 4091), 11, 5)
case('11 no length', SMALL, hx('01'), 11, 1)
case('11 one byte of the length', SMALL, hx('01 00'), 11, 2)
case('11 the length runs past: the length', SMALL, hx('01 0003 00 03'), 11, 1)
case('11 no sort: the rest\'s end', SMALL, hx('01 0000'), 11, 3)
case('11 no expression: the rest\'s end', SMALL, hx('01 0001 00'), 11, 4)
case('11 a missing byte counts to the rest\'s end, not the question\'s', SMALL, hx('01 0001 00 03'), 11, 4)
case('11 a variable without its byte', SMALL, hx('01 0002 00 00'), 11, 5)
case('11 one byte of a symbol', SMALL, hx('01 0003 00 01 00'), 11, 6)
case('11 left over in the rest', SMALL, hx('01 0003 00 03 07'), 11, 5)
case('11 left over behind the rest', SMALL, hx('01 0002 00 03 07'), 11, 5)
case('0 a question of version 2', SMALL, b'\x02' + D[1:], 0, 0)
case('12 version 3', SMALL, b'\x03' + D[1:], 12, 0)
case('13 sort 64', SMALL, hx('01 0002 40 03'), 13, 3)
case('14 unknown code', SMALL, hx('01 0002 00 04'), 14, 4)
case('14 no variable is bound: its byte', SMALL, hx('01 0003 00 0000'), 14, 5)
case('14 symbol not there', SMALL, hx('01 0004 00 01 0005'), 14, 5)
case('0 64 nodes', SMALL, asked(0, apply(4, leaves(32))), 0, 0)
case('14 the 65th node: its code', SMALL, asked(0, apply(4, apply(4, leaves(32)))), 14, 4 + 6 + 62)
case('15 the sort is wrong: its code', SMALL, hx('01 0004 01 010000'), 15, 4)
case('15 an argument\'s sort, behind a good one', book([symbol(0, 0, 0, 1), symbol(0, 0), symbol(0, 1)], []),
     asked(0, apply(0, apply(1), apply(1))), 15, 4 + 3 + 3)
case('1 a bad book before a bad question', SMALL + b'\x00', b'', 1, 56)


# ---- a book of exactly 32,768 bytes: operations, each with a rule of so many bytes
def rule_of(size):
    """A rule's expression of so many bytes, an odd number: fails take one byte, applies of symbol 0 three, choices one."""
    many = min(32, (size + 1) // 2)
    wide = (size - (2 * many - 1)) // 2
    e = b''
    for i in range(many):
        e += (b'\x02' if i < many - 1 else b'') + (apply(0) if i < wide else FAIL)
    assert len(e) == size
    return b'\x01' + e


# the frame takes 8 bytes; an operation its symbol (3), its tree's length (2), the rule's code (1) and the expression
sizes = [127] * 244 + [71] * 4
assert 8 + sum(6 + n for n in sizes) == 32768
whole = book([symbol(0, 0)] + [symbol(1, 0)] * len(sizes), [rule_of(n) for n in sizes])
case('0 a book of 32,768 bytes', whole, asked(0, apply(1)), 0, 0)
case('1 the same and one byte', whole + b'\x00', asked(0, apply(1)), 1, 0)

# ---- version 2 (requests L8 and L9): a book of one operation without arguments has its tree at place 10, and the rule's expression at 11; a
# question's expression stands at place 4
F0, F1 = symbol(1, 0), symbol(1, 0, 0)


def rule2(expression, *symbols):
    """A book of version 2: the operation has this rule; other symbols stand behind it."""
    return book([F0] + list(symbols), [b'\x01' + expression], 2)


NONE = asked(0, FAIL)
SMALL_2, D_2 = b'\x02' + SMALL[1:], b'\x02' + D[1:]
case('0 both of version 2', SMALL_2, D_2, 0, 0)
case('2 version 3 and a question of version 2', b'\x03' + SMALL[1:], D_2, 2, 0)
case('12 version 0 behind a book of version 2', SMALL_2, b'\x00' + D[1:], 12, 0)
case('0 a shared part in a book of version 2, the question of version 1', rule2(share(0, FAIL, var(0))), NONE, 0, 0)
case('0 a shared part in a question of version 2, the book of version 1', SMALL, asked(0, share(0, apply(0), var(0)), 2), 0, 0)
case('4 a shared part in a book of version 1, the question of version 2', book([F0], [b'\x01' + share(0, FAIL, var(0))]), asked(0, FAIL, 2), 4, 11)
case('14 a shared part in a question of version 1, the book of version 2', SMALL_2, asked(0, share(0, apply(0), var(0))), 14, 4)
case('4 code 4 in version 1, cut behind it: the code comes first', book([F0], [hx('01 04')]), NONE, 4, 11)
case('4 expression code 5 in version 2', rule2(hx('05')), NONE, 4, 11)
case('4 tree code 4 in version 2', book([F0], [hx('04 00 03 03')], 2), NONE, 4, 10)
case('14 expression code 5 in version 2', SMALL, asked(0, hx('05'), 2), 14, 4)
# L9: no exempt in version 2
case('4 an exempt in version 2: its code', book([F0], [hx('00')], 2), NONE, 4, 10)
case('0 the same in version 1', book([F0], [hx('00')]), asked(0, FAIL, 2), 0, 0)
case('4 an exempt in version 2, a byte left over behind it', book([F0], [hx('00 07')], 2), NONE, 4, 10)
case('4 an exempt in version 2, the second tree', book([F0, F0], [b'\x01' + FAIL, hx('00')], 2), NONE, 4, 3 + 6 + 2 + 4 + 2)
case('4 an exempt in version 2, in a branch: its code', book([symbol(0, 0), symbol(0, 0), F1], [hx('0200 0103 00')], 2), NONE, 4, 3 + 10 + 2 + 2 + 4)
case('4 an exempt in version 2, before what is wrong behind it',
     book([symbol(0, 0), symbol(0, 0), F1], [hx('0200 00 09')], 2), NONE, 4, 3 + 10 + 2 + 2 + 2)
case('3 a bad symbol before an exempt in version 2', book([symbol(2, 0), F0], [hx('00')], 2), NONE, 3, 4)
# L8: the order at a code 4: known in this version, 33rd variable, sort byte missing, sort byte above 63, the first, the body
case('1 no sort byte: the item\'s end', rule2(hx('04')), NONE, 1, 12)
case('3 sort byte 64', rule2(share(64, FAIL, FAIL)), NONE, 3, 12)
case('0 sort byte 63', rule2(share(63, FAIL, FAIL)), NONE, 0, 0)
case('3 sort byte 255, and nothing behind it', rule2(hx('04 FF')), NONE, 3, 12)
case('1 no first: the item\'s end', rule2(hx('04 00')), NONE, 1, 13)
case('1 no body: the item\'s end', rule2(hx('04 00 03')), NONE, 1, 14)
case('1 a byte left over behind the body', rule2(share(0, FAIL, FAIL) + b'\x07'), NONE, 1, 15)
case('5 the first has another sort: its code', rule2(share(1, apply(1), FAIL), symbol(0, 0)), NONE, 5, 3 + 6 + 2 + 2 + 1 + 2)
case('0 the first has the sort of the byte', rule2(share(1, apply(1), FAIL), symbol(0, 1)), NONE, 0, 0)
case('5 the body has another sort: its code', rule2(share(1, apply(1), apply(1)), symbol(0, 1)), NONE, 5, 3 + 6 + 2 + 2 + 1 + 2 + 3)
case('5 the variable has the sort of the byte: the variable\'s code', rule2(share(1, FAIL, var(0))), NONE, 5, 14)
case('4 a fault in the first before one in the body', rule2(share(0, hx('05'), hx('05'))), NONE, 4, 13)
case('4 the first does not see its variable', rule2(share(0, var(0), FAIL)), NONE, 4, 14)
case('4 the variable is there in the body only', rule2(choice(share(0, FAIL, var(0)), var(0))), NONE, 4, 18)
case('0 in a first the number is free again', rule2(share(0, share(0, FAIL, var(0)), var(0))), NONE, 0, 0)
case('0 a body in a body takes the next number', rule2(share(0, FAIL, share(1, FAIL, var(0)))), NONE, 0, 0)
case('5 a body in a body: variable 1 has the inner sort', rule2(share(0, FAIL, share(1, FAIL, var(1)))), NONE, 5, 11 + 3 + 3)
case('0 arguments come first: the first is variable 1', book([F1], [b'\x01' + share(1, FAIL, var(0))], 2), NONE, 0, 0)
case('5 arguments come first: variable 1 is of the byte\'s sort', book([F1], [b'\x01' + share(1, FAIL, var(1))], 2), NONE, 5, 3 + 4 + 2 + 2 + 1 + 3)
case('0 a branch\'s variables come first', book([symbol(0, 1, 2), symbol(1, 0, 1)], [hx('0200 01') + share(0, FAIL, var(2))], 2), NONE, 0, 0)
case('4 variable 3 behind a branch\'s and a first', book([symbol(0, 1, 2), symbol(1, 0, 1)], [hx('0200 01') + share(0, FAIL, var(3))], 2), NONE, 4,
     3 + 8 + 2 + 2 + 3 + 3 + 1)
# 32 variables
bodies = hx('040003')  # a first that is a fail, before its body
case('0 32 variables, all firsts', rule2(bodies * 32 + var(31)), NONE, 0, 0)
case('4 variable 32 of 32', rule2(bodies * 32 + var(32)), NONE, 4, 11 + 96 + 1)
case('4 the 33rd variable: its code', rule2(bodies * 33 + var(0)), NONE, 4, 11 + 96)
case('4 the 33rd variable, before its sort byte is missed', rule2(bodies * 32 + hx('04')), NONE, 4, 11 + 96)
case('4 the 33rd variable, before its sort byte 64', rule2(bodies * 32 + share(64, FAIL, FAIL)), NONE, 4, 11 + 96)
case('4 a 33rd variable in a choice', rule2(bodies * 32 + choice(var(0), share(0, FAIL, FAIL))), NONE, 4, 11 + 96 + 3)
case('4 a 33rd variable in a first, where 32 are in scope', rule2(bodies * 31 + share(0, FAIL, share(0, share(0, FAIL, FAIL), FAIL))), NONE, 4, 11 + 93 + 3)
case('0 a first in the 32nd first: there 31 are in scope', rule2(bodies * 31 + share(0, share(0, FAIL, var(31)), var(31))), NONE, 0, 0)
eight_more = symbol(1, 0, *[0] * 8)
case('0 eight arguments and 24 firsts', book([eight_more], [b'\x01' + bodies * 24 + var(31)], 2), NONE, 0, 0)
case('4 eight arguments and a 25th first', book([eight_more], [b'\x01' + bodies * 25 + var(31)], 2), NONE, 4, 3 + 11 + 2 + 2 + 1 + 72)
case('4 32 variables on a path and a first', book(binder + [symbol(1, 0, *eight)], [hx('02 00 02 01 02 02 01') + share(0, FAIL, FAIL)], 2), NONE, 4, free + 7)
case('0 32 variables on a path, no first', book(binder + [symbol(1, 0, *eight)], [hx('02 00 02 01 02 02 01') + FAIL], 2), NONE, 0, 0)
# 64 nodes: a code 4 is none, the first's count
case('0 64 nodes and 16 codes 4', rule2(hx('0400') * 16 + apply(1, leaves(32)) + var(0) * 16, symbol(0, 0, 0)), NONE, 0, 0)
case('4 the 65th node in a body', rule2(share(0, leaves(32), choice(FAIL, var(0)))), NONE, 4, 11 + 2 + 63 + 1)
case('4 the 65th node in a first', rule2(share(0, apply(1, apply(1, leaves(32))), var(0)), symbol(0, 0, 0)), NONE, 4, 3 + 7 + 2 + 2 + 1 + 2 + 6 + 62)
case('0 63 nodes in a first, one in the body', rule2(share(0, leaves(32), FAIL)), NONE, 0, 0)
# the same in a question
case('11 no sort byte', SMALL, asked(0, hx('04'), 2), 11, 5)
case('13 sort byte 64', SMALL, asked(0, share(64, FAIL, FAIL), 2), 13, 5)
case('0 sort byte 63', SMALL, asked(0, share(63, FAIL, FAIL), 2), 0, 0)
case('11 no body', SMALL, asked(0, hx('04 00 03'), 2), 11, 7)
case('11 left over behind the body', SMALL, asked(0, share(0, FAIL, FAIL) + b'\x03', 2), 11, 8)
case('15 the first has another sort', SMALL, asked(0, share(1, apply(0), FAIL), 2), 15, 6)
case('15 the variable has another sort', SMALL, asked(0, share(1, FAIL, var(0)), 2), 15, 7)
case('14 the first does not see its variable', SMALL, asked(0, share(0, var(0), FAIL), 2), 14, 7)
case('14 the variable is there in the body only', SMALL, asked(0, choice(share(0, FAIL, var(0)), var(0)), 2), 14, 11)
case('0 32 variables', SMALL, asked(0, bodies * 32 + var(31), 2), 0, 0)
case('14 the 33rd variable', SMALL, asked(0, bodies * 33 + var(0), 2), 14, 4 + 96)
case('14 the 33rd variable, before its sort byte is missed', SMALL, asked(0, bodies * 32 + hx('04'), 2), 14, 4 + 96)
case('14 the 65th node in a body', SMALL, asked(0, share(0, leaves(32), choice(FAIL, var(0))), 2), 14, 4 + 2 + 63 + 1)
case('4 a bad book before a bad question, both of version 2', rule2(hx('05')), asked(0, hx('05'), 2), 4, 11)


# Firsts in firsts, as deep as they are admitted: two bytes before each and a body behind it, which is a fail (one byte, a node) 63 times and else a
# lone variable (two bytes). The bottom is a fail. A book has 11 bytes before, a question 4.
def firsts(count, bottom=FAIL):
    return b'\x04\x00' * count + bottom + FAIL * min(count, 63) + var(0) * (count - min(count, 63))


assert len(rule2(firsts(8204))) == 32765 and len(asked(0, firsts(1038), 2)) == 4094
case('0 8,204 firsts in firsts in a book', rule2(firsts(8204)), NONE, 0, 0)
case('1 one more: over its size', rule2(firsts(8205)), NONE, 1, 0)
case('4 the lowest of 8,000 firsts is a variable that is not there', rule2(firsts(8000, var(0))), NONE, 4, 11 + 16000 + 1)
case('0 1,038 firsts in firsts in a question', SMALL, asked(0, firsts(1038), 2), 0, 0)
case('11 one more: over its size', SMALL, asked(0, firsts(1039), 2), 11, 0)
case('14 the lowest of 1,000 firsts is a variable that is not there', SMALL, asked(0, firsts(1000, var(0)), 2), 14, 4 + 2000 + 1)

with open(os.path.join(top, 'stdin'), 'wb') as f:
    for label, b, q, number, place in rows:
        f.write(two(len(label)) + label.encode() + two(len(b)) + b + two(len(q)) + q)
    assert f.tell() <= 262144
with open(os.path.join(top, 'stdout'), 'w') as f:
    for label, b, q, number, place in rows:
        f.write(f'{number} {place} {label}\n')
print(len(rows), 'rows')
