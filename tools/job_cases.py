#!/usr/bin/env python3
"""Writes crates/jobs/stdin and stdout: the 500 jobs of the speed mark of request L13, and the seven numbers that each gives.

A row of stdin: a book (two-byte length, bytes), how many questions it is asked (two bytes), and these, each a question (two-byte length, bytes)
and its fuel (four bytes). There are 25 books with 20 questions each, all by chance from one seed:
    22 of the archive: 30 to 60 headings with 0 to 3 broader terms, half of them with circles; "all terms above heading h", fuel 2,000
    3 times the small book of document 01: xor, dup and choices under which a loop lies, so that all fuel is used; fuel 20,000
stdout has a line for each: `R` and the numbers. It is made by the independent evaluator (independent/, subcommand `jobs`), never by the program.

usage: tools/job_cases.py            (builds the evaluator with cargo, writes both files)
"""
import collections
import os
import random
import subprocess
import sys

sys.dont_write_bytecode = True
from thesaurus import apply, asked, book_of, counted, one_of, terms_above, two

here = os.path.dirname(os.path.abspath(__file__))
repository = os.path.join(here, '..')
top = os.path.join(repository, 'crates', 'jobs')

BOOKS_OF_HEADINGS, SMALL_BOOKS, QUESTIONS = 22, 3, 20
chance = random.Random(13)

# ---- the archive

HEADINGS_FUEL = 2000


def headings_of(count, slips):
    """Broader terms stand among the eight behind their heading. Each slip of an editor makes a circle: a term gets one that it stands above."""
    headings = {}
    for h in range(count):
        behind = range(h + 1, min(h + 9, count))
        headings[h] = chance.sample(behind, min(len(behind), chance.choice([0, 1, 1, 2, 2, 3])))
    for _ in range(slips):
        low = high = chance.choice([h for h in headings if headings[h]])
        for _ in range(chance.randint(1, 4)):
            high = chance.choice(headings[high] or [high])
        headings[high] = headings[high][:2] + [low]
    return headings


def row_of_headings(slips):
    headings = headings_of(chance.randint(30, 60), slips)
    book, above = book_of(headings)
    asked_of = chance.sample(range(30), QUESTIONS)
    return book, [(terms_above(above, h), HEADINGS_FUEL) for h in asked_of]


# ---- the small book

SMALL = bytes.fromhex('01 0012 020000 020000 0401000000 020100 03010000 0021'
                      '000F 0200 010001 0201 01010001 01010000 0004 01010003 0008 0101000200000000')
SMALL_FUEL = 20000
FALSE, TRUE, XOR, LOOP, DUP = range(5)


def bit():
    return apply(chance.choice([FALSE, TRUE]))


def thought(deep):
    """An expression of xor, dup and choices."""
    kind = chance.randrange(5) if deep else 0
    if kind == 0:
        return bit()
    if kind == 1:
        return apply(DUP, thought(deep - 1))
    if kind == 2:
        return one_of([thought(deep - 1), thought(deep - 1)])
    return apply(XOR, thought(deep - 1), thought(deep - 1))


def above_a_loop(deep):
    """A loop under so many operations, each of which needs it."""
    inner = apply(LOOP)
    for _ in range(deep):
        inner = chance.choice([apply(DUP, inner), apply(XOR, inner, bit()), apply(XOR, bit(), inner)])
    return inner


def small_question():
    """A thought, and beside it up to three loops: lines of thought that never end."""
    loops = [above_a_loop(chance.randint(0, 6)) for _ in range(chance.randint(1, 3))]
    return asked(one_of(loops + [thought(3)]))


def small_row():
    return SMALL, [(small_question(), SMALL_FUEL) for _ in range(QUESTIONS)]


# ---- the table

rows = [row_of_headings(slips=(0, 1, 0, 3)[i % 4]) for i in range(BOOKS_OF_HEADINGS)] + [small_row() for _ in range(SMALL_BOOKS)]
table = b''
for book, questions in rows:
    table += counted(book) + two(len(questions))
    table += b''.join(counted(question) + fuel.to_bytes(4, 'big') for question, fuel in questions)
assert len(table) <= 131072

target = os.environ.get('CARGO_TARGET_DIR') or os.path.join(os.environ.get('TMPDIR', '/tmp'), 'independent-target')
subprocess.run(['cargo', 'build', '--quiet', '--release', '--offline'], cwd=os.path.join(repository, 'independent'), check=True,
               env=dict(os.environ, CARGO_TARGET_DIR=target))
printed = subprocess.run([os.path.join(target, 'release', 'independent'), 'jobs'], input=table, stdout=subprocess.PIPE, check=True).stdout
results = [[int(word) for word in line.split()[1:]] for line in printed.decode().splitlines()]
assert len(results) == len(rows) * QUESTIONS
with open(os.path.join(top, 'stdin'), 'wb') as f:
    f.write(table)
with open(os.path.join(top, 'stdout'), 'wb') as f:
    f.write(printed)
print(len(rows), 'books,', len(results), 'jobs,', len(table), 'bytes')
for name, part in ('headings', results[:BOOKS_OF_HEADINGS * QUESTIONS]), ('small book', results[BOOKS_OF_HEADINGS * QUESTIONS:]):
    numbers = ', '.join(f'{count} with {number}' for number, count in sorted(collections.Counter(r[0] for r in part).items()))
    print(f'{name}: {sum(r[2] for r in part)} turns, {sum(r[3] for r in part)} answers; ended {numbers}')
