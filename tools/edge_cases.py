#!/usr/bin/env python3
"""Writes crates/edges/stdin and stdout: a table of runs at the edges of document 01's sizes, and what each gives.

A row of stdin: a label (two-byte length, text), how many node numbers, list places and answer bytes are lent (two bytes each), the fuel
(four bytes), a book and a question (two-byte length, bytes). Its lines of stdout: first the label, the seven result numbers, and a checksum of
all the node numbers, all the list places and all the answer bytes that the program has, lent or not: 32,010, 100 and 16,400. Before a run each
number is 48,879, each place has root 7, choice 3 decided left and choice 200 right, each byte is 170. A checksum begins at 0 and becomes
(c * 31 + v) % 2^32 for each number v; an entry's are its root and its 256 decisions (0 open, 1 left, 2 right). Then a line for each answer as
`expand` prints it: `A`, the symbols, `|`, the decision numbers.

stdout is made by the independent evaluator (independent/, subcommand `edges`), never by the program. Beside each row stands what was worked
out by hand from document 01: the seven numbers, and what the used part of each memory holds, the answers among it. The script works these out
to checksums and lines and asserts that the evaluator's lines are the same.

usage: tools/edge_cases.py [--requests R] [FOLDER]            (builds the evaluator with cargo, writes both files into crates/edges if no folder is named)
R says which of requests L7 and L10 the runs have, `none`, `7`, `10` or `7,10`; without it those that have landed (cases.py). The table is the same.
"""
import os
import sys

from cases import *

requests, folder = options(sys.argv[1:], LANDED)
shortened, again = '7' in requests, '10' in requests
rows = []


def case(label, result, left, book, question, fuel=1000, numbers=32000, places=64, room=16384):
    """A row; `left` is None for memory that is untouched."""
    rows.append((label, result, left, bytes(book), bytes(question), fuel, numbers, places, room))


d_done = (0, 0, 10, 2, 8, 1, 0)
assert len(d_after(10).answers.written) == 17

# ---- fuel: D takes ten turns; the turn that is not made is not counted
case('D, fuel 10', d_done, d_after(10), SMALL, D, fuel=10)
case('D, fuel 9: one turn short', (20, 0, 9, 1, 8, 1, 1), d_after(9), SMALL, D, fuel=9)
case('D, fuel 0: loaded, no turn', (20, 0, 0, 0, 4, 1, 1), d_after(0), SMALL, D, fuel=0)
case('D, fuel 4,294,967,295: the largest', d_done, d_after(10), SMALL, D, fuel=4294967295)

# ---- node room: D needs eight nodes, the fifth turn takes the last two; four are loaded
case('D, 8 nodes: used to the last', d_done, d_after(10), SMALL, D, fuel=10, numbers=80)
# With L10 the second pull-up drops node 0, which no entry reaches any more, and takes the last two of seven; with six nodes it lacks one still.
if again:
    few = (0, 0, 10, 2, 7, 1, 0)
    moved = [one[:2] + [a - 1 for a in one[2:2 + arrows_of(one, SMALL_ARITIES)]] + one[2 + arrows_of(one, SMALL_ARITIES):] for one in d_after(10).nodes[1:]]
    d_few = Left(moved, [], d_after(10).answers)
    fewer = (21, 0, 4, 0, 5, 1, 2)
    d_fewer = Left(*dropped(d_after(4).nodes, d_after(4).waiting, SMALL_ARITIES), answers(), vacated=1)
else:
    few = fewer = (21, 0, 4, 0, 6, 1, 2)
    d_few = d_fewer = d_after(4)
case('D, 7 nodes: the second pull-up needs one more', few, d_few, SMALL, D, fuel=10, numbers=70)
case('D, 6 nodes', fewer, d_fewer, SMALL, D, fuel=10, numbers=60)
case('D, 4 nodes: loaded, the first pull-up needs two more', (21, 0, 1, 0, 4, 1, 1), d_after(1), SMALL, D, fuel=10, numbers=40)
case('D, 3 nodes: not loaded, nothing touched', (21, 0, 0, 0, 0, 0, 0), None, SMALL, D, fuel=10, numbers=30)
case('D, node room of 0 numbers', (21, 0, 0, 0, 0, 0, 0), None, SMALL, D, fuel=10, numbers=0)
# only whole nodes are used: the part node at the end of the room stays as it was
case('D, 85 numbers: 8 whole nodes and half of one', d_done, d_after(10), SMALL, D, fuel=10, numbers=85)
case('D, 79 numbers: 7 whole nodes and nine numbers', few, d_few, SMALL, D, fuel=10, numbers=79)
case('D, 39 numbers: 3 whole nodes, not loaded', (21, 0, 0, 0, 0, 0, 0), None, SMALL, D, fuel=10, numbers=39)

# ---- answer room: a byte for the version and two records of eight bytes
case('D, 17 answer bytes: used to the last', d_done, d_after(10), SMALL, D, fuel=10, room=17)
case('D, 16 answer bytes: one short for the second record', (25, 0, 9, 1, 8, 1, 1), d_after(9), SMALL, D, fuel=10, room=16)
case('D, 9 answer bytes: the first record to the last byte', (25, 0, 9, 1, 8, 1, 1), d_after(9), SMALL, D, fuel=10, room=9)
# the eighth turn writes the first record: with 8 bytes it is refused after seven, and only the version byte stands
case('D, 8 answer bytes: one short for the first record', (25, 0, 7, 0, 8, 1, 2), d_after(7), SMALL, D, fuel=10, room=8)
case('D, 1 answer byte: the version byte alone', (25, 0, 7, 0, 8, 1, 2), d_after(7), SMALL, D, fuel=10, room=1)
case('D, answer room 0: nothing touched', (25, 0, 0, 0, 0, 0, 0), None, SMALL, D, fuel=10, room=0)
case('D, no room of any kind: 25 comes first', (25, 0, 0, 0, 0, 0, 0), None, SMALL, D, fuel=10, numbers=0, places=0, room=0)

# ---- list: the split of the third turn needs two places
case('D, list of 2 places: used to the last', d_done, d_after(10), SMALL, D, fuel=10, places=2)
case('D, list of 1 place: the split needs one more', (23, 0, 2, 0, 6, 1, 1), d_after(2), SMALL, D, fuel=10, places=1)
case('D, list of 0 places: nothing touched', (23, 0, 0, 0, 0, 0, 0), None, SMALL, D, fuel=10, places=0)
case('D, no nodes and no places: 21 comes before 23', (21, 0, 0, 0, 0, 0, 0), None, SMALL, D, fuel=10, numbers=0, places=0)
case('D, list of 100 places: those past 64 stay as they were', d_done, d_after(10), SMALL, D, fuel=10, places=100)
case('D, list of 100 places, fuel 3: two wait', (20, 0, 3, 0, 6, 1, 2), d_after(3), SMALL, D, fuel=3, places=100)
case('D, list of 63 places, fuel 3: two wait', (20, 0, 3, 0, 6, 1, 2), d_after(3), SMALL, D, fuel=3, places=63)
# xor of True and True, no choice: its node becomes False in the first turn, which the second writes
case('no choice, list of 1 place', (0, 0, 2, 1, 3, 0, 0),
     Left([n_apply(FALSE), n_apply(TRUE), n_apply(TRUE)], [], answers(record([FALSE], {}))),
     SMALL, asked(apply(XOR, apply(TRUE), apply(TRUE))), fuel=10, places=1)

# ---- document 01's other two worked runs
# The first turn splits choice 0 of loop (node 1) and False (node 2); then loop is rewritten to itself and waits behind False, which the third
# turn writes; loop takes the seven turns that are left.
case('loop or False, fuel 10', (20, 0, 10, 1, 3, 1, 1),
     Left([n_choice(0, 1, 2), n_apply(LOOP), n_apply(FALSE)], [(1, {0: LEFT})], answers(record([FALSE], {0: RIGHT}))),
     SMALL, asked(choice(apply(LOOP), apply(FALSE))), fuel=10)
# xor looks at its first argument, a fail: its own node becomes one in the first turn, and the second sees it go. loop is never looked at.
case('xor of fail and loop, fuel 10', (0, 0, 2, 0, 3, 0, 0), Left([N_FAIL, N_FAIL, n_apply(LOOP)], [], answers()),
     SMALL, asked(apply(XOR, FAIL, apply(LOOP))), fuel=10)

# ---- refused before it is run
case('a book with a byte left over: nothing touched', (1, 56, 0, 0, 0, 0, 0), None, SMALL + b'\x00', D, fuel=10)
case('a question with a variable: nothing touched', (14, 5, 0, 0, 0, 0, 0), None, SMALL, hx('01 0003 00 0000'), fuel=10)
case('a question with a variable, list of 100 places', (14, 5, 0, 0, 0, 0, 0), None, SMALL, hx('01 0003 00 0000'), fuel=10, places=100)

# ---- 256 choices: eight(x) is a row of eight choices, each fail on its left, x at the end of the right; one(x) has one such choice
Z0, EIGHT, ONE = range(3)


def row_of(count):
    e = var(0)
    for _ in range(count):
        e = choice(FAIL, e)
    return rule(e)


CHOICES = book([constructor(), operation(1), operation(1)], [row_of(8), row_of(1)])


def eights(inner):
    """What 32 eights leave: node i is the first choice of the i-th, whose other 15 nodes are fresh, in the order written: fail, choice,
    fail, .. fail; the eighth choice's right arrow is the argument's, node i + 1. `inner` are the nodes behind them."""
    nodes = [None] * 32 + inner
    for i in range(32):
        fresh = len(nodes)
        nodes += [None] * 15
        at = [i] + [fresh + 2 * j - 1 for j in range(1, 8)] + [i + 1]
        for j in range(8):
            nodes[at[j]] = n_choice(8 * i + j, fresh + 2 * j, at[j + 1])
            nodes[fresh + 2 * j] = N_FAIL
    return nodes


all_right = {c: RIGHT for c in range(256)}
in_full = asked(times(EIGHT, 32, apply(Z0)))
decided = Left(eights([n_apply(Z0)]), [], answers(record([Z0], all_right)))
# Each eight takes a turn to be rewritten; each of its choices one to be split and one in which the fail goes: 17 turns, 544 in all. Then
# the entry waits on Z with every choice decided right, and the 545th turn writes it. Nodes: 33 loaded, 15 fresh for each eight: 513.
case('256 choices, all decided', (0, 0, 545, 1, 513, 256, 0), decided, CHOICES, in_full)
# The record: 2 for its length, 2 for the count, 2 for the symbol, 512 for the decisions; and the version byte.
assert len(decided.answers.written) == 519
case('256 choices, answer room of 519 bytes: used to the last', (0, 0, 545, 1, 513, 256, 0), decided, CHOICES, in_full, room=519)
case('256 choices, answer room of 518 bytes: one short', (25, 0, 544, 0, 513, 256, 1),
     Left(decided.nodes, [(32, all_right)], answers()), CHOICES, in_full, room=518)
# One node more is loaded, one(Z), which the 545th turn would rewrite with a fresh node and the 257th choice.
one_more = asked(times(EIGHT, 32, apply(ONE, apply(Z0))))
past = Left(eights([n_apply(ONE, 33), n_apply(Z0)]), [(32, all_right)], answers())
case('the 257th choice', (22, 0, 544, 0, 514, 256, 1), past, CHOICES, one_more)
case('the 257th choice, one node left', (22, 0, 544, 0, 514, 256, 1), past, CHOICES, one_more, numbers=5150)
# With L10 all but one(Z) is dropped, there is room, and the choice is refused.
kept = Left([n_apply(ONE, 1), n_apply(Z0)], [(0, all_right)], answers(), vacated=512)
case('the 257th choice, no node left: 21 comes before 22', (22, 0, 544, 0, 2, 256, 1) if again else (21, 0, 544, 0, 514, 256, 1),
     kept if again else past, CHOICES, one_more, numbers=5140)

# ---- 64 entries: symbols 1 to 6 are t1 = Z or Z, t2 = t1 or t1, .. t6 = t5 or t5;
# symbols 7 to 12 are a1 = (Z or Z) or Z, a2 = a1 or t1, .. a6 = a5 or t5
t_trees = [rule(choice(apply(k), apply(k))) for k in range(6)]
a_trees = [rule(choice(choice(apply(0), apply(0)), apply(0)))] + [rule(choice(apply(6 + k), apply(k))) for k in range(1, 6)]
ENTRIES = book([constructor()] + [operation()] * 12, t_trees + a_trees)


def path_to(i, number_of):
    """The decisions that lead from node 0 to node i, where node k has the children 2k + 1 and 2k + 2 and the choice number_of(k)."""
    decisions = {}
    while i:
        up = (i - 1) // 2
        decisions[number_of(up)] = LEFT if i == 2 * up + 1 else RIGHT
        i = up
    return decisions


# Entries take turns, so a level of the tree is rewritten from left to right, then split from left to right: node i becomes choice i of the
# fresh nodes 2i + 1 and 2i + 2, for i to 62. That is 63 rewrites and 63 splits, with 64 entries waiting after the last; none answers
# before. Then 64 turns write Z, each with the six decisions of its path (18 bytes): 190 turns, 127 nodes.
full = [n_choice(i, 2 * i + 1, 2 * i + 2) for i in range(63)] + [n_apply(0)] * 64
paths = [path_to(i, lambda k: k) for i in range(63, 127)]
t_done = Left(full, [], answers(*[record([0], p) for p in paths]))
assert len(t_done.answers.written) == 1 + 64 * 18
case('64 entries wait at once, then answer', (0, 0, 190, 64, 127, 63, 0), t_done, ENTRIES, asked(apply(6)))
case('64 entries wait', (20, 0, 126, 0, 127, 63, 64), Left(full, [(63 + j, paths[j]) for j in range(64)], answers()),
     ENTRIES, asked(apply(6)), fuel=126)
# The 63rd split is of the entry on node 62; those split before it wait on nodes 63 to 124.
case('64 entries in a list of 63 places: the last split', (23, 0, 125, 0, 127, 63, 63),
     Left(full, [(62, path_to(62, lambda k: k))] + [(63 + j, paths[j]) for j in range(62)], answers()),
     ENTRIES, asked(apply(6)), places=63)
case('64 entries in a list of 65 places', (0, 0, 190, 64, 127, 63, 0), t_done, ENTRIES, asked(apply(6)), places=65)
# With a6 the tree is the same up to node 31, the first of its level: choice 31 of node 63, a choice too (32, of 64 and 65), and of node 66.
# So the nodes from 32 on have choice numbers one higher and children two higher. After 126 turns 64 entries wait, and the front one stands
# on node 63, an open choice: its split needs a 65th place.
crowded = [n_choice(i, 2 * i + 1, 2 * i + 2) for i in range(31)] + [n_choice(31, 63, 66)]
crowded += [n_choice(i + 1, 2 * i + 3, 2 * i + 4) for i in range(32, 63)]
crowded += [n_choice(32, 64, 65)] + [n_apply(0)] * 65
shifted = [path_to(i, lambda k: k if k < 32 else k + 1) for i in range(63, 127)]
roots = [63] + list(range(66, 129))
crowd = Left(crowded, [(roots[j], shifted[j]) for j in range(64)], answers())
case('the 65th entry', (23, 0, 126, 0, 129, 64, 64), crowd, ENTRIES, asked(apply(12)))
case('the 65th entry in a list of 100 places: only 64 are used', (23, 0, 126, 0, 129, 64, 64), crowd, ENTRIES, asked(apply(12)), places=100)

# ---- values: double(x) = P(x, x), so eleven doubles of Z share one value of 4,095 symbols
Z, S, P, DOUBLE, SAME, LOOK, F51, F50 = range(8)
VALUES = book([constructor(), constructor(1), constructor(2), operation(1), operation(1), operation(1), operation(1), operation(1)],
              [rule(apply(P, var(0), var(0))), rule(var(0)), branch(0, rule(apply(Z)), rule(apply(Z)), rule(apply(Z))),
               rule(times(S, 51, var(0))), rule(times(S, 50, var(0)))])


def shared(count):
    """The symbols of so many doubles of Z, once they are rewritten."""
    return [Z] if count == 0 else [P] + 2 * shared(count - 1)


def doubled(above):
    """The nodes: so many S, eleven P of the node behind twice, Z."""
    nodes = [n_apply(S, i + 1) for i in range(above)]
    nodes += [n_apply(P, i + 1, i + 1) for i in range(above, above + 11)]
    return nodes + [n_apply(Z)]


assert len(shared(11)) == 4095
in_bounds = asked(apply(S, times(DOUBLE, 11, apply(Z))))
large = Left(doubled(1), [], answers(record([S] + shared(11), {})))
# Eleven turns rewrite the doubles from above, each in its own node; the twelfth walks over the value: 4,096 arrivals, one for each symbol.
case('a value of 4,096 symbols', (0, 0, 12, 1, 13, 0, 0), large, VALUES, in_bounds)
case('a value of 4,097 symbols: the 4,097th arrival', (24, 0, 11, 0, 14, 0, 1), Left(doubled(2), [(0, {})], answers()),
     VALUES, asked(times(S, 2, times(DOUBLE, 11, apply(Z)))))
# The record: 2 for its length, 2 for the count, 8,192 for the symbols; and the version byte.
assert len(large.answers.written) == 8197
case('a value of 4,096 symbols, answer room of 8,197 bytes: used to the last', (0, 0, 12, 1, 13, 0, 0), large, VALUES, in_bounds, room=8197)
case('a value of 4,096 symbols, answer room of 8,196 bytes: one short', (25, 0, 11, 0, 13, 0, 1), Left(large.nodes, [(0, {})], answers()),
     VALUES, in_bounds, room=8196)


# Ten times S of double, on S of Z, is a value of 2, 6, 14, 30, .. 4,094 symbols, so in P of it and x the node of x is the 4,096th arrival.
def beside(x):
    """The nodes once the doubles are rewritten: 0 P, 1 to 21 S and P in turn, 22 Z, 23 as given, 24 Z."""
    nodes = [n_apply(P, 1, 23)]
    for i in range(1, 21, 2):
        nodes += [n_apply(S, i + 1), n_apply(P, i + 2, i + 2)]
    return nodes + [n_apply(S, 22), n_apply(Z), x, n_apply(Z)]


def alternating(count):
    """The symbols of so many times S of double on S of Z."""
    return [S, Z] if count == 0 else [S, P] + 2 * alternating(count - 1)


def question_beside(f):
    e = apply(S, apply(Z))
    for _ in range(10):
        e = apply(S, apply(DOUBLE, e))
    return asked(apply(P, e, apply(f, apply(Z))))


assert len(alternating(10)) == 4094
# SAME is one variable: it is rewritten where it is met, in the eleventh turn; its forward leads to Z, again the 4,096th arrival.
case('a step at the 4,096th arrival', (0, 0, 12, 1, 25, 0, 0),
     Left(beside(n_forward(24)), [], answers(record([P] + alternating(10) + [Z], {}))), VALUES, question_beside(SAME))
# LOOK branches on its argument, whose node is one arrival more.
case('the 4,097th arrival in a branch', (24, 0, 10, 0, 25, 0, 1), Left(beside(n_apply(LOOK, 24)), [(0, {})], answers()),
     VALUES, question_beside(LOOK))


# ---- depth: F51(x) is 51 times S of x, and F50 has 50, so five F51 of Z are Z 255 arrows down
def chained(nodes, at, lengths):
    """Turns the nodes from `at` on into chains of S of these lengths, each from its own node over fresh ones to the next node."""
    for i, length in enumerate(lengths):
        fresh = len(nodes)
        way = [at + i] + list(range(fresh, fresh + length - 1)) + [at + i + 1]
        nodes += [None] * (length - 1)
        for j in range(length):
            nodes[way[j]] = n_apply(S, way[j + 1])
    return nodes


# Five turns rewrite, each with 50 fresh nodes; the sixth writes the value of 256 symbols.
case('depth 255: Z is 255 arrows down', (0, 0, 6, 1, 256, 0, 0),
     Left(chained([None] * 5 + [n_apply(Z)], 0, [51] * 5), [], answers(record([S] * 255 + [Z], {}))),
     VALUES, asked(times(F51, 5, apply(Z))))
case('depth 256: an arrival 256 arrows down', (24, 0, 5, 0, 257, 0, 1),
     Left(chained([n_apply(S, 1)] + [None] * 5 + [n_apply(Z)], 1, [51] * 5), [(0, {})], answers()),
     VALUES, asked(apply(S, times(F51, 5, apply(Z)))))
# SAME is one variable: its node, 255 arrows down, becomes a forward in the sixth turn, and the arrow out of it does not count.
case('depth 255 and a forward: its arrow does not count', (0, 0, 7, 1, 257, 0, 0),
     Left(chained([None] * 5 + [n_forward(6), n_apply(Z)], 0, [51] * 5), [], answers(record([S] * 255 + [Z], {}))),
     VALUES, asked(times(F51, 5, apply(SAME, apply(Z)))))
# LOOK branches on its argument and gives Z. Four F51 and an F50 put it 254 arrows down: the branch variable's node is 255 down.
case('depth 255 in a branch', (0, 0, 7, 1, 256, 0, 0),
     Left(chained([None] * 5 + [n_apply(Z), n_apply(Z)], 0, [51] * 4 + [50]), [], answers(record([S] * 254 + [Z], {}))),
     VALUES, asked(times(F51, 4, apply(F50, apply(LOOK, apply(Z))))))
case('depth 256 in a branch', (24, 0, 5, 0, 257, 0, 1),
     Left(chained([None] * 5 + [n_apply(LOOK, 6), n_apply(Z)], 0, [51] * 5), [(0, {})], answers()),
     VALUES, asked(times(F51, 5, apply(LOOK, apply(Z)))))
# DEEP branches on its argument and then on what that S has under it, which is one arrow below the S that stores it and so two below DEEP. The
# S of the question and four F51 put DEEP 253 or 254 arrows down.
DEEP, G51 = range(2, 4)
NESTED = book([constructor(), constructor(1), operation(1), operation(1)],
              [branch(0, rule(apply(Z)), branch(1, rule(apply(Z)), rule(apply(Z)))), rule(times(S, 51, var(0)))])


def above_deep(count, deep):
    """The nodes: so many S, four chains of 51, DEEP or what became of it, S, Z."""
    nodes = [n_apply(S, i + 1) for i in range(count)] + [None] * 4 + [deep, n_apply(S, count + 6), n_apply(Z)]
    return chained(nodes, count, [51] * 4)


def question_deep(count):
    return asked(times(S, count, times(G51, 4, apply(DEEP, apply(S, apply(Z))))))


case('depth 255 in a branch below a branch', (0, 0, 6, 1, 256, 0, 0),
     Left(above_deep(49, n_apply(Z)), [], answers(record([S] * 253 + [Z], {}))), NESTED, question_deep(49))
case('depth 256 in a branch below a branch', (24, 0, 4, 0, 257, 0, 1),
     Left(above_deep(50, n_apply(DEEP, 55)), [(0, {})], answers()), NESTED, question_deep(50))

# ---- 3,200 nodes: grow(S m, x) = grow(m, 63 times S of x), with 63 fresh nodes; grow(Z, x) = 61 times S of Z, with 61 fresh nodes
GROW = 2
GROWING = book([constructor(), constructor(1), operation(2)],
               [branch(0, rule(times(S, 61, apply(Z))), rule(apply(GROW, var(2), times(S, 63, var(1)))))])


def grown(second):
    """The nodes after 49 turns: 0 grow of (1, 51), 1 to 49 S, 50 Z, from 51 on the second argument; then 63 S for each turn."""
    nodes = [None] + [n_apply(S, i + 1) for i in range(1, 50)] + [n_apply(Z)] + second
    x = 51
    for _ in range(49):
        fresh = len(nodes)
        nodes += [n_apply(S, fresh + j + 1) for j in range(62)] + [n_apply(S, x)]
        x = fresh
    nodes[0] = n_apply(GROW, 50, x)
    return nodes


# 52 are loaded, 49 turns take 63 each: 3,139; the fiftieth takes 61: 3,200; the 51st writes the value of 62 symbols.
last = grown([n_apply(Z)])
assert len(last) == 3139
last[0] = n_apply(S, 3139)
last += [n_apply(S, 3139 + j + 1) for j in range(60)] + [n_apply(Z)]
assert len(last) == 3200
all_nodes = Left(last, [], answers(record([S] * 61 + [Z], {})))
fits = asked(apply(GROW, times(S, 49, apply(Z)), apply(Z)))
case('3,200 nodes: used to the last', (0, 0, 51, 1, 3200, 0, 0), all_nodes, GROWING, fits)
# One node more is loaded, so the fiftieth turn needs the 3,201st. With L10 it drops the 49 S that were counted down, and finishes.
def out_of_nodes(nodes):
    """What is left, and the result, where the fiftieth turn lacks nodes."""
    if not again:
        return Left(nodes, [(0, {})], answers()), (21, 0, 49, 0, len(nodes), 0, 1)
    nodes, _ = dropped(nodes, [(0, {})], [0, 1, 2])
    fresh = len(nodes)
    nodes[0] = n_apply(S, fresh)
    nodes += [n_apply(S, fresh + j + 1) for j in range(60)] + [n_apply(Z)]
    return Left(nodes, [], answers(record([S] * 61 + [Z], {}))), (0, 0, 51, 1, fresh + 61, 0, 0)


over, over_result = out_of_nodes(grown([n_apply(S, 52), n_apply(Z)]))
assert over_result[4] == (3152 if again else 3140)
too_many = asked(apply(GROW, times(S, 49, apply(Z)), apply(S, apply(Z))))
case('the 3,201st node', over_result, over, GROWING, too_many)
case('3,200 nodes, 32,010 numbers lent: the last ten stay as they were', (0, 0, 51, 1, 3200, 0, 0), all_nodes, GROWING, fits, numbers=32010)
case('the 3,201st node, 32,010 numbers lent: only 3,200 nodes are used', over_result, over, GROWING, too_many, numbers=32010)
less, less_result = out_of_nodes(grown([n_apply(Z)]))
case('3,200 nodes, 31,999 numbers lent: 3,199 whole nodes', less_result, less, GROWING, fits, numbers=31999)

# ---- change request L2: all children of a constructor are looked at first, and this adds no arrivals
PAIR, NIL, ROUND = range(3)
PAIRS = book([constructor(2), constructor(), operation()], [rule(apply(ROUND))])
case('a pair whose first part circles and whose second has failed: the first turn ends it', (0, 0, 1, 0, 3, 0, 0),
     Left([n_apply(PAIR, 1, 2), n_apply(ROUND), N_FAIL], [], answers()), PAIRS, asked(apply(PAIR, apply(ROUND), FAIL)), fuel=10)
case('a pair of a choice and a fail: the fail comes first', (0, 0, 1, 0, 5, 1, 0),
     Left([n_apply(PAIR, 1, 4), n_choice(0, 2, 3), n_apply(NIL), n_apply(NIL), N_FAIL], [], answers()),
     PAIRS, asked(apply(PAIR, choice(apply(NIL), apply(NIL)), FAIL)), fuel=10)
case('a pair of a circle and a choice: it is pulled up past the circle', (20, 0, 1, 0, 7, 1, 1),
     Left([n_choice(0, 5, 6), n_apply(ROUND), n_choice(0, 3, 4), n_apply(NIL), n_apply(NIL), n_apply(PAIR, 1, 3), n_apply(PAIR, 1, 4)],
          [(0, {})], answers()),
     PAIRS, asked(apply(PAIR, apply(ROUND), choice(apply(NIL), apply(NIL)))), fuel=1)
case('a pair of two choices: the leftmost is pulled up', (20, 0, 1, 0, 9, 2, 1),
     Left([n_choice(0, 7, 8), n_choice(0, 2, 3), n_apply(NIL), n_apply(NIL), n_choice(1, 5, 6), n_apply(NIL), n_apply(NIL),
           n_apply(PAIR, 2, 4), n_apply(PAIR, 3, 4)], [(0, {})], answers()),
     PAIRS, asked(apply(PAIR, choice(apply(NIL), apply(NIL)), choice(apply(NIL), apply(NIL)))), fuel=1)
# the last of 255 S below the first has the fail as its child: it is seen from there, with no arrival 256 arrows down
case('a fail 256 arrows down: the first look adds no arrival', (0, 0, 6, 0, 257, 0, 0),
     Left(chained([n_apply(S, 1)] + [None] * 5 + [N_FAIL], 1, [51] * 5), [], answers()),
     VALUES, asked(apply(S, times(F51, 5, FAIL))))

# ---- change request L8: shared parts. Z, S of one and P of two as above (symbols 0 to 2); the operations of the book stand behind
def later(*trees, arguments=0):
    """A book of version 2 with operations of so many arguments from symbol 3 on."""
    return book([constructor(), constructor(1), constructor(2)] + [operation(arguments)] * len(trees), list(trees), 2)


PLAIN = later()
NEW = 3
ZERO, ONE_S = apply(Z), apply(S, apply(Z))
# D again: book and question have versions of their own
SMALL_2, D_2 = b'\x02' + SMALL[1:], b'\x02' + D[1:]
case('D, the book of version 2', d_done, d_after(10), SMALL_2, D, fuel=10)
case('D, the question of version 2', d_done, d_after(10), SMALL, D_2, fuel=10)
case('D, both of version 2, fuel 9', (20, 0, 9, 1, 8, 1, 1), d_after(9), SMALL_2, D_2, fuel=9)
case('a shared part in a question of version 1: nothing touched', (14, 4, 0, 0, 0, 0, 0), None, PLAIN, asked(share(ZERO, var(0))))
# In a question the body's top is the root; for a lone variable, the node it stands for.
case('let x = Z in x: the root is node 0', (0, 0, 1, 1, 1, 0, 0), Left([n_apply(Z)], [], answers(record([Z], {}))), PLAIN, asked(share(ZERO, var(0)), 2))
two_firsts = [n_apply(Z), n_apply(S, 2), n_apply(Z)]
case('let x = Z in let y = S Z in y: the root is node 1', (20, 0, 0, 0, 3, 0, 1), Left(two_firsts, [(1, {})], answers()),
     PLAIN, asked(share(ZERO, share(ONE_S, var(1))), 2), fuel=0)
case('let x = Z in let y = S Z in x: the root is node 0', (20, 0, 0, 0, 3, 0, 1), Left(two_firsts, [(0, {})], answers()),
     PLAIN, asked(share(ZERO, share(ONE_S, var(0))), 2), fuel=0)
case('let x = Z in let y = S x in P y x: the root is node 2', (0, 0, 1, 1, 3, 0, 0),
     Left([n_apply(Z), n_apply(S, 0), n_apply(P, 1, 0)], [], answers(record([P, S, Z, Z], {}))),
     PLAIN, asked(share(ZERO, share(apply(S, var(0)), apply(P, var(1), var(0)))), 2))
case('S of let x = Z in x: a lone variable elsewhere stands for its arrow', (0, 0, 1, 1, 2, 0, 0),
     Left([n_apply(S, 1), n_apply(Z)], [], answers(record([S, Z], {}))), PLAIN, asked(apply(S, share(ZERO, var(0))), 2))
case('a first in a first', (0, 0, 1, 1, 3, 0, 0),
     Left([n_apply(Z), n_apply(S, 0), n_apply(P, 1, 1)], [], answers(record([P, S, Z, S, Z], {}))),
     PLAIN, asked(share(share(ZERO, apply(S, var(0))), apply(P, var(0), var(0))), 2))
case('32 variables in a question: the root is node 31', (0, 0, 1, 1, 32, 0, 0),
     Left([n_apply(Z)] * 32, [], answers(record([Z], {}))), PLAIN, asked((b'\x04\x00' + ZERO) * 32 + var(31), 2))
case('a 33rd variable: nothing touched', (14, 4 + 32 * 5, 0, 0, 0, 0, 0), None, PLAIN, asked((b'\x04\x00' + ZERO) * 33 + var(31), 2))
case('a first that is not used needs its nodes: 3 of 3', (0, 0, 1, 1, 3, 0, 0), Left([n_apply(S, 1), n_apply(Z), n_apply(Z)], [], answers(record([Z], {}))),
     PLAIN, asked(share(ONE_S, ZERO), 2), numbers=30)
case('a first that is not used needs its nodes: 2 of 3', (21, 0, 0, 0, 0, 0, 0), None, PLAIN, asked(share(ONE_S, ZERO), 2), numbers=20)


def one_way(root, first):
    """P x x, where x is a choice of Z and S Z: it is pulled up once for each user, and each entry takes it one way for both. The choice node's
    number is `first`, its Z and S right behind it, the nodes made in the run from `root` and `first` on."""
    c, z, s = first, first + 1, first + 2
    n = max(root, first + 3) + 1
    nodes = {c: n_choice(0, z, s), z: n_apply(Z), s: n_apply(S, s + 1), s + 1: n_apply(Z),
             root: n_choice(0, n, n + 1),             # first turn: pulled up at the first user; second: the split
             n: n_choice(0, n + 2, n + 3),            # third turn: P Z x is pulled up at the second user
             n + 1: n_choice(0, n + 4, n + 5),        # fourth turn: P (S Z) x
             n + 2: n_apply(P, z, z), n + 3: n_apply(P, z, s), n + 4: n_apply(P, s, z), n + 5: n_apply(P, s, s)}
    return Left([nodes[k] for k in range(n + 6)], [], answers(record([P, Z, Z], {0: LEFT}), record([P, S, Z, S, Z], {0: RIGHT})))


# Two turns more find the choice decided, two write.
EITHER, TWICE = choice(ZERO, ONE_S), apply(P, var(0), var(0))
case('a shared choice taken one way by two users', (0, 0, 8, 2, 11, 1, 0), one_way(4, 0), PLAIN, asked(share(EITHER, TWICE), 2))
# The same by a rule: the first's nodes are fresh and made first, the body's top takes the old place.
case('the same by a rule: the body\'s top takes the old place', (0, 0, 9, 2, 11, 1, 0), one_way(0, 1), later(rule(share(EITHER, TWICE))), asked(apply(NEW)))
case('the same by a rule, one turn', (20, 0, 1, 0, 5, 1, 1),
     Left([n_apply(P, 1, 1), n_choice(0, 2, 3), n_apply(Z), n_apply(S, 4), n_apply(Z)], [(0, {})], answers()),
     later(rule(share(EITHER, TWICE))), asked(apply(NEW)), fuel=1)
# A lone variable on top makes a forward to a fresh node, so one is needed.
forward = later(rule(share(ZERO, var(0))))
case('a rule that is let x = Z in x: a forward', (0, 0, 2, 1, 2, 0, 0), Left([n_forward(1), n_apply(Z)], [], answers(record([Z], {}))),
     forward, asked(apply(NEW)), numbers=20)
case('a rule that is let x = Z in x, no node left', (21, 0, 0, 0, 1, 0, 1), Left([n_apply(NEW)], [(0, {})], answers()),
     forward, asked(apply(NEW)), numbers=10)
# One argument: a first that is a variable stands for the arrow as stored.
case('let x = the argument in P x x', (0, 0, 2, 1, 2, 0, 0), Left([n_apply(P, 1, 1), n_apply(Z)], [], answers(record([P, Z, Z], {}))),
     later(rule(share(var(0), apply(P, var(1), var(1)))), arguments=1), asked(apply(NEW, ZERO)), numbers=20)
case('let x = the argument in x: a forward without a fresh node', (0, 0, 2, 1, 2, 0, 0), Left([n_forward(1), n_apply(Z)], [], answers(record([Z], {}))),
     later(rule(share(var(0), var(1))), arguments=1), asked(apply(NEW, ZERO)), numbers=20)
case('let x = S of the argument in the argument: a forward past a fresh node', (0, 0, 2, 1, 3, 0, 0),
     Left([n_forward(1), n_apply(Z), n_apply(S, 1)], [], answers(record([Z], {}))),
     later(rule(share(apply(S, var(0)), var(0))), arguments=1), asked(apply(NEW, ZERO)))
# A first that the body does not use: its nodes are made all the same, before the body's.
unused = later(rule(share(apply(P, ZERO, ZERO), ONE_S)))
case('a first that the body does not use', (0, 0, 2, 1, 5, 0, 0),
     Left([n_apply(S, 4), n_apply(P, 2, 3), n_apply(Z), n_apply(Z), n_apply(Z)], [], answers(record([S, Z], {}))),
     unused, asked(apply(NEW)), numbers=50)
case('a first that the body does not use, one node short', (21, 0, 0, 0, 1, 0, 1), Left([n_apply(NEW)], [(0, {})], answers()),
     unused, asked(apply(NEW)), numbers=40)
case('its choices are numbered before the body\'s', (0, 0, 4, 2, 7, 2, 0),
     Left([n_choice(1, 4, 5), n_choice(0, 2, 3), n_apply(Z), n_apply(Z), n_apply(Z), n_apply(S, 6), n_apply(Z)], [],
          answers(record([Z], {1: LEFT}), record([S, Z], {1: RIGHT}))),
     later(rule(share(choice(ZERO, ZERO), EITHER))), asked(apply(NEW)))
# c(x) = let y = (eight choices of fails) in x takes eight choices and 17 nodes that nobody uses, and makes a forward.
eight = FAIL
for _ in range(8):
    eight = choice(FAIL, eight)
taker = later(rule(share(eight, var(0))), arguments=1)


def taken(calls, rewritten):
    """The nodes of so many calls on Z, so many of them rewritten."""
    nodes = [n_forward(i + 1) if i < rewritten else n_apply(NEW, i + 1) for i in range(calls)] + [n_apply(Z)]
    for i in range(rewritten):
        at = len(nodes)
        for j in range(8):
            nodes += [n_choice(8 * i + j, at + 2 * j + 1, at + 2 * j + 2), N_FAIL]
        nodes.append(N_FAIL)
    if shortened:  # the turn behind the last rewrite has followed the root's forwards: of these only the root's own is on a chain that is longer than one
        nodes[0] = n_forward(rewritten)
    return nodes


assert len(taken(32, 32)) == 33 + 32 * 17 == 577
case('256 choices in firsts that are not used', (0, 0, 33, 1, 577, 256, 0), Left(taken(32, 32), [], answers(record([Z], {}))),
     taker, asked(times(NEW, 32, ZERO)), numbers=5770)
case('the 257th choice in a first that is not used', (22, 0, 32, 0, 578, 256, 1), Left(taken(33, 32), [(0, {})], answers()),
     taker, asked(times(NEW, 33, ZERO)), numbers=5950)
# With L10 the choices of the firsts are dropped, and the choice is refused; with L7 the forwards behind the root's own are dropped too.
short_of, short_result = Left(taken(33, 32), [(0, {})], answers()), (21, 0, 32, 0, 578, 256, 1)
if again:
    kept, roots = dropped(short_of.nodes, short_of.waiting, [0, 1, 2, 1])
    assert len(kept) == (3 if shortened else 34)
    short_of, short_result = Left(kept, roots, answers(), vacated=578 - len(kept)), (22, 0, 32, 0, len(kept), 256, 1)
case('the 257th choice in a first, one node short: 21 comes before 22', short_result, short_of, taker, asked(times(NEW, 33, ZERO)), numbers=5940)


# Firsts in firsts: each level is two bytes before and a lone variable behind. A question has 4 bytes before its expression; the book below 23 before
# its rule's, of which the code is one.
def nested_firsts(count):
    return b'\x04\x00' * count + ZERO + var(0) * count


assert len(asked(nested_firsts(1022), 2)) == 4095
case('1,022 firsts in firsts in a question', (0, 0, 1, 1, 1, 0, 0), Left([n_apply(Z)], [], answers(record([Z], {}))),
     PLAIN, asked(nested_firsts(1022), 2))
deep_rule = later(rule(nested_firsts(8185)))
assert len(deep_rule) == 32766
case('8,185 firsts in firsts in a rule: a forward', (0, 0, 2, 1, 2, 0, 0), Left([n_forward(1), n_apply(Z)], [], answers(record([Z], {}))),
     deep_rule, asked(apply(NEW)), numbers=20)

# ---- change request L7: a chain of forwards is shortened where it is followed

def short(arrows, *nodes):
    """Nodes of which the first are forwards: to the first of each pair without L7, to the second with it."""
    return [n_forward(b if shortened else a) for a, b in arrows] + list(nodes)


# same(x) = x, and look(x) branches on x and gives Z.
AS_IS, LOOKS = 3, 4
FORWARDS = later(rule(var(0)), branch(0, rule(ZERO), rule(ZERO), rule(ZERO)), arguments=1)
# Each turn makes the next same a forward; the root's chain is followed over the forward that the turn before made. The others lead to the next.
case('three forwards in a chain', (0, 0, 4, 1, 4, 0, 0), Left(short([(1, 3), (2, 2), (3, 3)], n_apply(Z)), [], answers(record([Z], {}))),
     FORWARDS, asked(times(AS_IS, 3, ZERO)))
case('three forwards in a chain, fuel 3: a turn refused with 20 follows nothing', (20, 0, 3, 0, 4, 0, 1),
     Left(short([(1, 2), (2, 2), (3, 3)], n_apply(Z)), [(0, {})], answers()), FORWARDS, asked(times(AS_IS, 3, ZERO)), fuel=3)
case('two forwards to a choice, list of 1 place: 23 keeps the root\'s chain', (23, 0, 2, 0, 5, 1, 1),
     Left(short([(1, 2), (2, 2)], n_choice(0, 3, 4), n_apply(Z), n_apply(Z)), [(0, {})], answers()),
     FORWARDS, asked(times(AS_IS, 2, choice(ZERO, ZERO))), places=1)
case('two forwards to a value, answer room of 1 byte: 25 keeps the chain', (25, 0, 2, 0, 3, 0, 1),
     Left(short([(1, 2), (2, 2)], n_apply(Z)), [(0, {})], answers()), FORWARDS, asked(times(AS_IS, 2, ZERO)), room=1)
# look's variable is node 1: a forward after the first turn, over 2 to 3 after the second; the third follows both.
case('two forwards at a branch variable', (0, 0, 4, 1, 4, 0, 0),
     Left([n_apply(Z)] + short([(2, 3), (3, 3)], n_apply(Z)), [], answers(record([Z], {}))), FORWARDS, asked(apply(LOOKS, times(AS_IS, 2, ZERO))))
# let b = same(same Z) in P(same b, P(fail, b)): 0 and 1 are b's, 2 Z, 3 P, 4 same, 5 P, 6 fail. The first look at 3 follows 4 in each turn, and
# at 5, in the fourth turn, both children before the fail ends the entry.
case('the first look follows a child behind a fail', (0, 0, 4, 0, 7, 0, 0),
     Left(short([(1, 2), (2, 2)], n_apply(Z), n_apply(P, 4, 5)) + short([(0, 2)]) + [n_apply(P, 6, 0), N_FAIL], [], answers()),
     FORWARDS, asked(share(times(AS_IS, 2, ZERO), apply(P, apply(AS_IS, var(0)), apply(P, FAIL, var(0)))), 2))
# The same b beside 254 S and LOOK of b: 4 is followed in three turns, five turns make the S, and LOOK's variable is met 256 arrows down.
case('256 arrows down in a branch: the arrow\'s forwards have been followed', (24, 0, 8, 0, 260, 0, 1),
     Left(chained(short([(1, 2), (2, 2)], n_apply(Z), n_apply(P, 4, 5)) + short([(0, 2)]) + [None] * 5 + [n_apply(LOOK, 0)], 5, [51] * 4 + [50]),
          [(3, {})], answers()),
     VALUES, asked(share(times(SAME, 2, ZERO), apply(P, apply(SAME, var(0)), times(F51, 4, apply(F50, apply(LOOK, var(0)))))), 2))

# let b = many(many(many(many Z))) in P(same b, S b), where many(x) is 50 times same of x: 0 to 3 are many, 4 Z, 5 P, 6 same, 7 S. One turn makes 6 a forward,
# four times 51 turns those of b, which only 6 leads into; so b's first still leads to its second, when the last turn follows all 200 from S.
chain = [0, *range(8, 57), 1, *range(57, 106), 2, *range(106, 155), 3, *range(155, 204), 4]
links = {a: n_forward(4 if shortened else b) for a, b in zip(chain, chain[1:])}
links.update({4: n_apply(Z), 5: n_apply(P, 6, 7), 6: n_forward(4 if shortened else 0), 7: n_apply(S, 0)})
case('200 forwards followed at once', (0, 0, 206, 1, 204, 0, 0), Left([links[n] for n in range(204)], [], answers(record([P, Z, S, Z], {}))),
     later(rule(var(0)), rule(times(AS_IS, 50, var(0))), arguments=1),
     asked(share(times(4, 4, ZERO), apply(P, apply(AS_IS, var(0)), apply(S, var(0)))), 2))

# ---- change request L10: spin(x) = spin(6 times S of Z) takes seven nodes a turn, and eight can be reached
SPIN = 4
SPINS = later(rule(var(0)), rule(apply(SPIN, times(S, 6, ZERO))), arguments=1)


def spun(at):
    """Six S and Z from a node on."""
    return [n_apply(S, at + i + 1) for i in range(6)] + [n_apply(Z)]


once = [n_apply(SPIN, 2), n_apply(Z)] + spun(2)
case('a circle of rewriting in 15 nodes', (20, 0, 1000, 0, 15, 0, 1) if again else (21, 0, 1, 0, 9, 0, 1),
     Left([n_apply(SPIN, 8)] + spun(1) + spun(8) if again else once, [(0, {})], answers()), SPINS, asked(apply(SPIN, ZERO)), numbers=150)
case('a circle of rewriting in 14 nodes', (21, 0, 1, 0, 8, 0, 1) if again else (21, 0, 1, 0, 9, 0, 1),
     Left([n_apply(SPIN, 1)] + spun(1), [(0, {})], answers(), vacated=1) if again else Left(once, [(0, {})], answers()),
     SPINS, asked(apply(SPIN, ZERO)), numbers=140)
# Behind four forwards: 16 nodes are enough if the root's own is the only one left.
behind = [n_forward(4 if shortened else 1), n_forward(2), n_forward(3), n_forward(4), n_apply(SPIN, 6), n_apply(Z)] + spun(6)
if again and shortened:
    circle = (20, 0, 1000, 0, 16, 0, 1), Left([n_forward(1), n_apply(SPIN, 9)] + spun(2) + spun(9), [(0, {})], answers())
elif again:
    circle = (21, 0, 5, 0, 12, 0, 1), Left(*dropped(behind, [(0, {})], [0, 1, 2, 1, 1]), answers(), vacated=1)
else:
    circle = (21, 0, 5, 0, 13, 0, 1), Left(behind, [(0, {})], answers())
case('a circle of rewriting behind four forwards in 16 nodes', *circle, SPINS, asked(times(AS_IS, 4, apply(SPIN, ZERO))), numbers=160)

# ---- the archive's example, with the fuel that its file has; README.md says what its six answers mean
dolly = open(os.path.join(here, 'corn-dollies.input'), 'rb').read()
end = 2 + int.from_bytes(dolly[:2], 'big')
dolly_book = dolly[2:end]
dolly_question = dolly[end + 2:-4]
assert int.from_bytes(dolly[end:end + 2], 'big') == len(dolly_question) and int.from_bytes(dolly[-4:], 'big') == 40
above = [record([2], {0: LEFT, 1: LEFT}), record([3], {0: RIGHT, 2: LEFT}), record([5], {0: RIGHT, 2: RIGHT, 4: LEFT}),
         record([4], {0: LEFT, 1: RIGHT, 3: LEFT, 5: LEFT}), record([1], {0: LEFT, 1: RIGHT, 3: RIGHT, 6: LEFT}),
         record([2], {0: LEFT, 1: RIGHT, 3: RIGHT, 6: RIGHT, 7: LEFT})]
example = Left(None, None, answers(*above))
case('the archive\'s example: what stands above corn dollies', (20, 0, 40, 6, 25, 9, 1), example, dolly_book, dolly_question, fuel=40)
case('the archive\'s example, list of 100 places', (20, 0, 40, 6, 25, 9, 1), example, dolly_book, dolly_question, fuel=40, places=100)


# ---- the files

def by_hand(label, result, left, places):
    """The lines of a row, from the hand-made result and memory; what is not known is a `?`."""
    shown = left.answers.lines if left else []
    if left:
        assert len(shown) == result[3], (label, shown, result)
    if left and left.nodes is not None:
        counts = (len(left.nodes), len(left.waiting))
        assert counts == (result[4], result[6]), (label, counts, result)
    return ['{}: {} {} {} {} {} {} {}; {}'.format(label, *result, sums(left, places, False))] + shown


table = b''
for label, result, left, b, q, fuel, numbers, places, room in rows:
    assert numbers <= NUMBERS and places <= PLACES and room <= BYTES
    table += part(label.encode()) + two(numbers) + two(places) + two(room) + four(fuel) + part(b) + part(q)
assert len(table) <= 60000, len(table)

printed = evaluator(requests)('edges', given=table)
lines = printed.decode().splitlines()
wrong = 0
for label, result, left, b, q, fuel, numbers, places, room in rows:
    hand = by_hand(label, result, left, places)
    got, lines = lines[:len(hand)], lines[len(hand):]
    if [as_known(line, h) for line, h in zip(got, hand)] != hand:
        wrong += 1
        print('by hand  ', *hand, sep='\n')
        print('evaluator', *got, sep='\n')
assert not lines, lines
if wrong:
    sys.exit(f'{wrong} rows differ; nothing is written')
put_files(folder or os.path.join(repository, 'crates', 'edges'), table, printed)
print(len(rows), 'rows,', len(table), 'bytes')
