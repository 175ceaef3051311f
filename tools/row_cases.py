#!/usr/bin/env python3
"""Writes stdin and stdout of the program `rows` (request L3): a table of runs over rows of questions, and what each gives.

stdin is groups, one behind the other up to its end. Numbers are big-endian; a field is a two-byte length and as many bytes.
  group: a field with the book; two bytes, how many rows; the rows.
  row:   a field with the label;
         how many node numbers, list places and answer bytes are lent (two bytes each), the fuel (four bytes);
         how many lengths (two bytes), each length (two bytes); a field with the questions' bytes, end to end.

The program has 32,010 node numbers, 100 list places and 16,400 answer bytes, and lends the first of each. Before each run each number is 48,879, each place
has root 7, question 5, choice 3 decided left and choice 200 right, each byte is 170. It prints for a row:
  the label;
  `R` and the eight numbers of the result: number, place, turns, answers, nodes, choices, waiting, question;
  for each answer its question's number, then `A`, the symbols, `|`, the decision numbers;
  `nodes`, `list` and `bytes`, each with a checksum of all of that memory, lent or not. A checksum begins at 0 and becomes (c * 31 + v) % 2^32 for each
  number v; an entry's are its root, its question's number and its 256 decisions (0 open, 1 left, 2 right).

stdout is made by the independent evaluator (independent/, subcommand `rows`), never by the program. Beside each row stands what was worked out by hand from
documents 01 and 02: the eight numbers, the answers, and for many rows all that the run leaves. The script asserts that the evaluator's lines are the
same. Behind these rows stand some that the evaluator made by chance (`independent make rows`), for which nothing was worked out by hand.

usage: tools/row_cases.py [--requests R] [FOLDER]       (R: requests L7 and L10 of the runs, `7,10` if not named; FOLDER: crates/rows)
"""
import os
import sys

from cases import *

requests, folder = options(sys.argv[1:], '7,10')
shortened, again = '7' in requests, '10' in requests
groups = []


def over(book):
    """The rows that follow are over this book."""
    groups.append((bytes(book), []))


def case(label, result, left, questions, fuel=1000, numbers=32000, places=64, room=16384, lengths=None, after=b''):
    """A row over the last book; `left` is None for memory that is untouched. `lengths` and `after` are for rows that are wrong."""
    if lengths is None:
        lengths = [len(q) for q in questions]
    groups[-1][1].append((label, result, left, lengths, b''.join(questions) + after, fuel, numbers, places, room))


def book_2(*records):
    return answers(*records, version=2)


def fault(number, place, question):
    return number, place, 0, 0, 0, 0, 0, question


LOOP_OR_FALSE = hx('01 0008 00 02 010003 010000')
A_VARIABLE = hx('01 0003 00 0000')
A_FALSE = hx('01 0004 00 010000')
A_TRUE = hx('01 0004 00 010001')
A_FAIL = hx('01 0002 00 03')
over(SMALL)

# ---- a row of one question: as alone, but for the layout
case('D, a row of one', (0, 0, 10, 2, 8, 1, 0, 0), d_after(10, 2), [D], fuel=10)
case('D, a row of one, fuel 9', (20, 0, 9, 1, 8, 1, 1, 0), d_after(9, 2), [D], fuel=9)
case('D, a row of one, fuel 0: loaded', (20, 0, 0, 0, 4, 1, 1, 0), d_after(0, 2), [D], fuel=0)
# a record has ten bytes now: 21 in all
case('D, a row of one, 21 answer bytes', (0, 0, 10, 2, 8, 1, 0, 0), d_after(10, 2), [D], room=21)
case('D, a row of one, 20 answer bytes', (25, 0, 9, 1, 8, 1, 1, 0), d_after(9, 2), [D], room=20)
case('D, a row of one, 10 answer bytes', (25, 0, 7, 0, 8, 1, 2, 0), d_after(7, 2), [D], room=10)

# ---- D twice. Loaded: 0 to 3 and 4 to 7, choices 0 and 1. The two take turns: the first pull-ups take 8, 9 and 10, 11, the second 12, 13 and 14, 15.
NUMBER = [{0: 0, 1: 1, 2: 2, 3: 3, 4: 8, 5: 9, 6: 12, 7: 13}, {0: 4, 1: 5, 2: 6, 3: 7, 4: 10, 5: 11, 6: 14, 7: 15}]


def as_question(q, turns):
    """The nodes (by number), the entries and the records of D as question q of two, after so many of its turns."""
    alone = d_after(turns)
    nodes = {}
    for n, one in enumerate(alone.nodes):
        used = arrows_of(one, SMALL_ARITIES)
        label = q if one[0] == 1 else one[1]
        nodes[NUMBER[q][n]] = [one[0], label] + [NUMBER[q][a] for a in one[2:2 + used]] + [0] * (8 - used)
    entries = [(NUMBER[q][root], {q: d[0]} if d else {}, q) for root, d in alone.waiting]
    return nodes, entries, [record([FALSE], {q: side}, q) for side in (LEFT, RIGHT)[:len(alone.answers.lines)]]


def d_twice(first, second, order, records):
    """After so many turns of each; `order` are the waiting entries, each by its question and its place among that question's; `records` likewise."""
    parts = [as_question(0, first), as_question(1, second)]
    nodes = dict(parts[0][0], **{})
    nodes.update(parts[1][0])
    assert sorted(nodes) == list(range(len(nodes)))
    return Left([nodes[n] for n in range(len(nodes))], [parts[q][1][i] for q, i in order], book_2(*[parts[q][2][i] for q, i in records]))


case('D twice', (0, 0, 20, 4, 16, 2, 0, 0), d_twice(10, 10, [], [(0, 0), (1, 0), (0, 1), (1, 1)]), [D, D])
case('D twice, loaded', (20, 0, 0, 0, 8, 2, 2, 0), d_twice(0, 0, [(0, 0), (1, 0)], []), [D, D], fuel=0)
case('D twice, one turn of the first', (20, 0, 1, 0, 8, 2, 2, 0), d_twice(1, 0, [(1, 0), (0, 0)], []), [D, D], fuel=1)
# six turns: both are split; the seventh is of the first one's left side
case('D twice, seven turns', (20, 0, 7, 0, 12, 2, 4, 0), d_twice(4, 3, [(0, 0), (1, 0), (1, 1), (0, 1)], []), [D, D], fuel=7)
case('D twice, eight turns', (20, 0, 8, 0, 14, 2, 4, 0), d_twice(5, 3, [(1, 0), (1, 1), (0, 0), (0, 1)], []), [D, D], fuel=8)
case('D twice, list of 4 places', (0, 0, 20, 4, 16, 2, 0, 0), d_twice(10, 10, [], [(0, 0), (1, 0), (0, 1), (1, 1)]), [D, D], places=4)
case('D twice, list of 3 places: the second split', (23, 0, 5, 0, 12, 2, 3, 0), d_twice(3, 2, [(1, 0), (0, 0), (0, 1)], []), [D, D], places=3)
case('D twice, list of 2 places: the first split', (23, 0, 4, 0, 12, 2, 2, 0), d_twice(2, 2, [(0, 0), (1, 0)], []), [D, D], places=2)
# answers: ten bytes each, behind the version byte
case('D twice, 41 answer bytes', (0, 0, 20, 4, 16, 2, 0, 0), d_twice(10, 10, [], [(0, 0), (1, 0), (0, 1), (1, 1)]), [D, D], room=41)
case('D twice, 40 answer bytes', (25, 0, 19, 3, 16, 2, 1, 0), d_twice(10, 9, [(1, 0)], [(0, 0), (1, 0), (0, 1)]), [D, D], room=40)
# nodes: the eighth turn is the first one's second pull-up, the tenth the second one's. With L10 they drop nodes 0 and 4, the old roots.
all_four = [(0, 0), (1, 0), (0, 1), (1, 1)]
at_seven, at_nine = d_twice(4, 3, [(0, 0), (1, 0), (1, 1), (0, 1)], []), d_twice(5, 4, [(1, 0), (0, 0), (0, 1), (1, 1)], [])
case('D twice, 16 nodes', (0, 0, 20, 4, 16, 2, 0, 0), d_twice(10, 10, [], all_four), [D, D], numbers=160)
if again:
    case('D twice, 15 nodes', (0, 0, 20, 4, 14, 2, 0, 0), Left(None, None, d_twice(10, 10, [], all_four).answers), [D, D], numbers=150)
    # In 13 the eighth has room once 0 and 4 are gone, and the tenth finds nothing more to drop.
    case('D twice, 13 nodes', (21, 0, 9, 0, 12, 2, 4, 0), Left(*dropped(at_nine.nodes, at_nine.waiting, SMALL_ARITIES), book_2()), [D, D], numbers=130)
else:
    case('D twice, 15 nodes', (21, 0, 9, 0, 14, 2, 4, 0), at_nine, [D, D], numbers=150)
    case('D twice, 13 nodes', (21, 0, 7, 0, 12, 2, 4, 0), at_seven, [D, D], numbers=130)
# In 11 the fourth turn, the second one's first pull-up, lacks one, and all can be reached.
case('D twice, 11 nodes', (21, 0, 3, 0, 10, 2, 2, 0), d_twice(2, 1, [(1, 0), (0, 0)], []), [D, D], numbers=110)

# ---- a circle costs the others only its share of turns
# (loop or False) and D: both load 3 + 4 nodes. The circle's left entry goes round for ever.
case('a circle beside D', (20, 0, 1000, 3, 11, 2, 1, 0),
     Left(None, None, book_2(record([FALSE], {0: RIGHT}, 0), record([FALSE], {1: LEFT}, 1), record([FALSE], {1: RIGHT}, 1))), [LOOP_OR_FALSE, D])
case('three answers of one turn each', (0, 0, 3, 3, 3, 0, 0, 0),
     Left([n_apply(FALSE), n_apply(TRUE), n_apply(FALSE)], [], book_2(record([FALSE], {}, 0), record([TRUE], {}, 1), record([FALSE], {}, 2))),
     [A_FALSE, A_TRUE, A_FALSE])
case('three answers, fuel 1', (20, 0, 1, 1, 3, 0, 2, 0),
     Left([n_apply(FALSE), n_apply(TRUE), n_apply(FALSE)], [(1, {}, 1), (2, {}, 2)], book_2(record([FALSE], {}, 0))), [A_FALSE, A_TRUE, A_FALSE], fuel=1)
case('a question that fails between two that answer', (0, 0, 3, 2, 3, 0, 0, 0),
     Left([n_apply(FALSE), N_FAIL, n_apply(FALSE)], [], book_2(record([FALSE], {}, 0), record([FALSE], {}, 2))), [A_FALSE, A_FAIL, A_FALSE])

# ---- how many: 16 for none or more than 32; 32 are loaded
many = [n_apply(FALSE)] * 32
case('32 questions', (0, 0, 32, 32, 32, 0, 0, 0), Left(many, [], book_2(*[record([FALSE], {}, q) for q in range(32)])), [A_FALSE] * 32)
case('32 questions, loaded', (20, 0, 0, 0, 32, 0, 32, 0), Left(many, [(q, {}, q) for q in range(32)], book_2()), [A_FALSE] * 32, fuel=0)
case('32 questions, list of 32 places', (20, 0, 0, 0, 32, 0, 32, 0), Left(many, [(q, {}, q) for q in range(32)], book_2()), [A_FALSE] * 32, fuel=0, places=32)
case('32 questions, list of 31 places', fault(23, 0, 0), None, [A_FALSE] * 32, fuel=0, places=31)
case('32 questions, list of 100 places', (20, 0, 0, 0, 32, 0, 32, 0), Left(many, [(q, {}, q) for q in range(32)], book_2()), [A_FALSE] * 32, fuel=0, places=100)
case('33 questions', fault(16, 0, 0), None, [A_FALSE] * 33)
case('no question', fault(16, 0, 0), None, [])
case('no question, but bytes', fault(16, 0, 0), None, [], after=A_FALSE)
case('33 lengths and no bytes', fault(16, 0, 0), None, [], lengths=[0] * 33)

# ---- questions are met in order
case('the first is wrong', fault(14, 5, 0), None, [A_VARIABLE, D])
case('the second is wrong', fault(14, 5, 1), None, [D, A_VARIABLE])
case('both are wrong: the first', fault(14, 5, 0), None, [A_VARIABLE, hx('03')])
case('the 32nd is wrong', fault(12, 0, 31), None, [A_FALSE] * 31 + [b'\x00' + A_FALSE[1:]])
case('11 in the third, its place from its first byte', fault(11, 7, 2), None, [D, D, A_FALSE + b'\x00'])
case('13 in the second', fault(13, 3, 1), None, [D, hx('01 0001 40')])
case('15 in the second', fault(15, 4, 1), None, [D, hx('01 0004 01 010000')])
case('12 in the second: version 3', fault(12, 0, 1), None, [D, b'\x03' + A_FALSE[1:]])
case('a length of 0', fault(11, 0, 1), None, [D, b'', D])
case('bytes too few for the first', fault(11, 0, 0), None, [D[:-1]], lengths=[14])
case('bytes too few for the second, of which nothing is read', fault(11, 0, 1), None, [D, A_VARIABLE], lengths=[14, 7])
case('a fault of the first comes before bytes too few for the second', fault(14, 5, 0), None, [A_VARIABLE, D[:3]], lengths=[6, 14])
case('no bytes at all', fault(11, 0, 0), None, [], lengths=[7, 7])
case('a byte left over: the last one\'s number', fault(11, 0, 1), None, [D, D], after=b'\x00')
case('a byte left over behind a wrong one', fault(14, 5, 1), None, [D, A_VARIABLE], after=b'\x00')
case('a byte moved to the first: left over in it', fault(11, 14, 0), None, [D, A_FALSE], lengths=[15, 6])
case('a byte moved to the second: the first runs past its bytes', fault(11, 1, 0), None, [D, A_FALSE], lengths=[13, 8])
case('lengths whose sum comes round in 16 bits', fault(11, 0, 1), None, [D, D], lengths=[14, 65535, 15])
case('a length above 4,096 with its bytes there', fault(11, 0, 1), None, [D], lengths=[14, 4097], after=bytes(4097))
case('a length of 4,096 is read', fault(12, 0, 1), None, [D], lengths=[14, 4096], after=bytes(4096))

# ---- loading is judged over all questions: 25, 21, 22, 23
case('no room of any kind: 25', fault(25, 0, 0), None, [D, D], numbers=0, places=0, room=0)
case('7 nodes for 8: 21', fault(21, 0, 0), None, [D, D], numbers=79, places=0)
case('1 place for 2: 23', fault(23, 0, 0), None, [D, D], numbers=80, places=1)
case('8 nodes for 8', (20, 0, 0, 0, 8, 2, 2, 0), d_twice(0, 0, [(0, 0), (1, 0)], []), [D, D], fuel=0, numbers=80, places=2, room=1)


def fails(count):
    """So many choices of fails, nested to the right."""
    e = FAIL
    for _ in range(count):
        e = choice(FAIL, e)
    return asked(e)


def loaded_fails(counts):
    """Their nodes, with choices numbered on, and the root of each."""
    nodes, roots, c = [], [], 0
    for count in counts:
        roots.append(len(nodes))
        for _ in range(count):
            n = len(nodes)
            nodes += [n_choice(c, n + 1, n + 2), N_FAIL]
            c += 1
        nodes.append(N_FAIL)
    return nodes, roots


counts = [31] * 8 + [8]
nodes, roots = loaded_fails(counts)
assert len(nodes) == 8 * 63 + 17 == 521
case('256 choices of nine questions', (20, 0, 0, 0, 521, 256, 9, 0), Left(nodes, [(r, {}, q) for q, r in enumerate(roots)], book_2()),
     [fails(c) for c in counts], fuel=0)
case('257 choices: 22 at loading', fault(22, 0, 0), None, [fails(31)] * 8 + [fails(9)], fuel=0)
case('257 choices, a node short: 21 before 22', fault(21, 0, 0), None, [fails(31)] * 8 + [fails(9)], fuel=0, numbers=5220)
case('257 choices, a place short: 22 before 23', fault(22, 0, 0), None, [fails(31)] * 8 + [fails(9)], fuel=0, places=8)

# ---- the book before the row
over(SMALL + b'\x00')
case('a byte behind the book: 1 before 16', fault(1, 56, 0), None, [])
over(b'\x03' + SMALL[1:])
case('version 3: 2 before 11', fault(2, 0, 0), None, [b''])

# ---- version 2: each question has its own version byte; the body's top is the root, and a lone variable stands for a node
Z, S, P, TAKES, SAME = range(5)
ZERO, ONE_S = apply(Z), apply(S, apply(Z))
# takes(x) = let y = (z or z) in x, a forward, and a choice that nobody uses; same(x) = x
SHARES = book([constructor(), constructor(1), constructor(2), operation(1), operation(1)], [rule(share(choice(ZERO, ZERO), var(0))), rule(var(0))], 2)
over(SHARES)
row = [asked(share(ZERO, share(ONE_S, var(1))), 2), asked(ZERO), asked(share(ONE_S, apply(P, var(0), var(0))), 2)]
loaded = [n_apply(Z), n_apply(S, 2), n_apply(Z), n_apply(Z), n_apply(S, 5), n_apply(Z), n_apply(P, 4, 4)]
case('roots of shared parts: 1, 3 and 6', (20, 0, 0, 0, 7, 0, 3, 0), Left(loaded, [(1, {}, 0), (3, {}, 1), (6, {}, 2)], book_2()), row, fuel=0)
case('roots of shared parts, answered', (0, 0, 3, 3, 7, 0, 0, 0),
     Left(loaded, [], book_2(record([S, Z], {}, 0), record([Z], {}, 1), record([P, S, Z, S, Z], {}, 2))), row)
case('code 4 in version 1: 14 in the second', fault(14, 4, 1), None, [asked(ZERO), asked(share(ZERO, var(0)))])
case('sort 64 of a shared part: 13 in the second', fault(13, 5, 1), None, [asked(ZERO), asked(b'\x04\x40' + ZERO + var(0), 2)])

# ---- choices of a run are shared: 22 where the second question makes the 257th
def taking(count):
    return asked(times(TAKES, count, ZERO))


# Five questions take turns, and each turn makes a choice and three nodes. Four with 60 calls and one with 16 make 256; the last one answers first.
case('256 choices by five questions', (0, 0, 60 * 4 + 16 + 5, 5, 61 * 4 + 17 + 256 * 3, 256, 0, 0),
     Left(None, None, book_2(record([Z], {}, 4), *[record([Z], {}, q) for q in range(4)])), [taking(60)] * 4 + [taking(16)])
# With 17 calls the last one answers in the 90th turn, behind 17 rounds of five and four turns of the others; the 257th choice is one of theirs.
case('the 257th choice by one of five', (22, 0, 257, 1, 61 * 4 + 18 + 256 * 3, 256, 4, 0),
     Left(None, None, book_2(record([Z], {}, 4))), [taking(60)] * 4 + [taking(17)])

# ---- forwards and nodes used again, over questions
# same(same Z) and Z: each turn of the first makes a forward; the third follows both.
f = (lambda a, b: n_forward(b)) if shortened else (lambda a, b: n_forward(a))
case('a chain of forwards beside another question', (0, 0, 4, 2, 4, 0, 0, 0),
     Left([f(1, 2), f(2, 2), n_apply(Z), n_apply(Z)], [], book_2(record([Z], {}, 1), record([Z], {}, 0))), [asked(times(SAME, 2, ZERO)), asked(ZERO)])
# takes of takes of Z, twice: six nodes are loaded, each call takes three. In eleven nodes the second one's first call lacks one; with L10 what the
# first one's made (6 to 8) is dropped.
two_calls = [asked(times(TAKES, 2, ZERO))] * 2
after_one = [n_forward(1), n_apply(TAKES, 2), n_apply(Z), n_apply(TAKES, 4), n_apply(TAKES, 5), n_apply(Z), n_choice(0, 7, 8), n_apply(Z), n_apply(Z)]
if again:
    case('calls of two questions in 11 nodes', (0, 0, 6, 2, 9, 4, 0, 0), Left(None, None, book_2(record([Z], {}, 0), record([Z], {}, 1))),
         two_calls, numbers=110)
else:
    case('calls of two questions in 11 nodes', (21, 0, 1, 0, 9, 1, 2, 0), Left(after_one, [(3, {}, 1), (0, {}, 0)], book_2()), two_calls, numbers=110)
case('calls of two questions, one turn', (20, 0, 1, 0, 9, 1, 2, 0), Left(after_one, [(3, {}, 1), (0, {}, 0)], book_2()), two_calls, fuel=1)

# ---- 24 ends the run for all: deep(x) = 60 times S of x, five of them are too deep; Z has answered before
DEEP = 2
over(book([constructor(), constructor(1), operation(1)], [rule(times(1, 60, var(0)))]))
case('one question too deep', (24, 0, 6, 1, 7 + 5 * 59, 0, 1, 0), Left(None, None, book_2(record([0], {}, 1))),
     [asked(times(DEEP, 5, apply(0))), asked(apply(0))])


# ---- the files

def by_hand(label, result, left, places):
    """The lines of a row, from the hand-made result and memory; what is not known is a `?`."""
    shown = left.answers.lines if left else []
    if left:
        assert len(shown) == result[3], (label, shown, result)
    if left and left.nodes is not None:
        counts = (len(left.nodes), len(left.waiting))
        assert counts == (result[4], result[6]), (label, counts, result)
    return [label, ' '.join(['R'] + [str(n) for n in result])] + shown + [sums(left, places, True)]


def put(groups):
    table = b''
    for b, rows in groups:
        table += part(b) + two(len(rows))
        for label, result, left, lengths, questions, fuel, numbers, places, room in rows:
            assert numbers <= NUMBERS and places <= PLACES and room <= BYTES
            table += part(label.encode()) + two(numbers) + two(places) + two(room) + four(fuel)
            table += two(len(lengths)) + b''.join(two(n) for n in lengths) + part(questions)
    return table


run = evaluator(requests)
table = put(groups)
lines = run('rows', given=table).decode().splitlines()
wrong = 0
for _, rows in groups:
    for label, result, left, lengths, questions, fuel, numbers, places, room in rows:
        hand = by_hand(label, result, left, places)
        got, lines = lines[:len(hand)], lines[len(hand):]
        if [as_known(line, h) for line, h in zip(got, hand)] != hand:
            wrong += 1
            print('by hand  ', *hand, sep='\n')
            print('evaluator', *got, sep='\n')
assert wrong or not lines, lines
if wrong:
    sys.exit(f'{wrong} rows differ; nothing is written')

# By chance: tables of the evaluator's maker, as long as there is room; those of many bytes, or that print many, are passed over.
by_chance = 0
for number in range(400):
    made = run('make', 'rows', '20', str(number))
    if len(made) < 900 and len(table) + len(made) <= 56000 and len(run('rows', given=made)) < 2000:
        table += made
        by_chance += 1
assert len(table) < 60000
printed = run('rows', given=table)
put_files(folder or os.path.join(repository, 'crates', 'rows'), table, printed)
print(sum(len(rows) for _, rows in groups), 'rows by hand,', by_chance, 'tables by chance,', len(table), 'bytes,', len(printed), 'printed')
