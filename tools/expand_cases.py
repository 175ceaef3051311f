#!/usr/bin/env python3
"""Writes stdin and stdout of the program `expansions`: a table of inputs of `expand`.

A row of stdin: a field with the label and a field with an input of `expand`, each behind its length in two bytes. Its lines of stdout: the label, then
what `expand` prints. Beside each row stands how it must end: `J`, or the number and the place of the result. What is printed is made by the independent
evaluator (independent/, subcommand `expand`), never by the program; the script asserts that it ends so.

usage: tools/expand_cases.py [FOLDER]            (crates/expansions, if none is named; builds the evaluator with cargo, writes both files)
"""
import os
import subprocess
import sys

here = os.path.dirname(os.path.abspath(__file__))
repository = os.path.join(here, '..')
rows = []


def hx(text):
    return bytes.fromhex(text.replace(' ', ''))


def two(n):
    return bytes([n // 256, n % 256])


def fed(book, question, fuel):
    return two(len(book)) + book + two(len(question)) + question + fuel.to_bytes(4, 'big')


def case(label, given, end):
    rows.append((label, given, end))


SMALL = hx('01 0012 020000 020000 0401000000 020100 03010000 0021'
           '000F 0200 010001 0201 01010001 01010000 0004 01010003 0008 0101000200000000')
D = hx('01 000B 00 010004 02 010000 010001')

# the frame
whole = fed(SMALL, D, 10)
case('no input', b'', 'J')
case('one byte', b'\0', 'J')
case('the fuel is cut short', whole[:-1], 'J')
case('a byte behind the fuel', whole + b'\0', 'J')
case('the question runs past the input', two(len(SMALL)) + SMALL + two(40) + D + bytes(4), 'J')

# answers
case('D, fuel 10', whole, '0 0')
case('D, fuel 9', fed(SMALL, D, 9), '20 0')
case('loop or False', fed(SMALL, hx('01 0008 00 02 010003 010000'), 10), '20 0')
case('xor of fail and loop', fed(SMALL, hx('01 0008 00 010002 03 010003'), 10), '0 0')

# refusals of the book
case('1: the empty book', fed(b'', D, 10), '1 0')
case('1: a byte behind the book', fed(SMALL + b'\0', D, 10), '1 56')
case('2: version 3', fed(b'\3' + SMALL[1:], D, 10), '2 0')
case('3: no symbols', fed(hx('01 0000 0000'), D, 10), '3 1')
case('4: tree code 3', fed(hx('01 0003 020100 0003 0001 03'), D, 10), '4 10')
case('5: a rule of another sort', fed(hx('01 0006 020000 020101 0006 0004 01 010000'), D, 10), '5 14')

# refusals of the question
case('11: cut short', fed(SMALL, D[:-1], 10), '11 1')
case('12: version 3', fed(SMALL, b'\3' + D[1:], 10), '12 0')
case('13: sort 64', fed(SMALL, D[:3] + b'\x40' + D[4:], 10), '13 3')
case('14: a variable', fed(SMALL, hx('01 0003 00 0000'), 10), '14 5')
case('15: another sort', fed(SMALL, hx('01 0004 01 010000'), 10), '15 4')

# limits of a run. Symbols 0 a, 1 C(x), constructors; 2 grows(x), whose rule is grows(C(x)); 3 tries, whose rule is fail or tries; 4 doubles: doubles or doubles;
# 5 deep, whose rule is C(deep); 6 goes on: a or goes on
RULES = [hx('01 010002 010001 0000'), hx('01 02 03 010003'), hx('01 02 010004 010004'), hx('01 010001 010005'), hx('01 02 010000 010006')]
TREES = b''.join(two(len(r)) + r for r in RULES)
SYMBOLS = hx('020000 03000000 03010000 020100 020100 020100 020100')
LIMITS = b'\1' + two(len(SYMBOLS)) + SYMBOLS + two(len(TREES)) + TREES


def asks(expression):
    return b'\1' + two(1 + len(expression)) + b'\0' + expression


case('21: nodes', fed(LIMITS, asks(hx('010002 010000')), 100000), '21 0')
case('22: choices', fed(LIMITS, asks(hx('010003')), 100000), '22 0')
case('23: entries', fed(LIMITS, asks(hx('010004')), 100000), '23 0')
case('24: depth', fed(LIMITS, asks(hx('010005')), 100000), '24 0')
case('25: answer room', fed(LIMITS, asks(hx('010006')), 100000), '25 0')

# version 2: symbols 0 straw work, 1 wheat, 2 label(x, y), constructors; 3 plait: let x be straw work in x
LABELS = hx('02 000E 020000 020000 0400010000 020100 000A 0008 01 0400 010000 0000')
case('a shared choice is taken one way', fed(LABELS, hx('02 0011 01 0400 02 010000 010001 010002 0000 0000'), 20), '0 0')
case('a first that the body does not use', fed(LABELS, hx('02 0009 00 0400 010000 010001'), 20), '0 0')
case('a lone variable on top of a question', fed(LABELS, hx('02 0008 00 0400 010000 0000'), 20), '0 0')
case('a lone variable on top of a rule, a question of version 1', fed(LABELS, hx('01 0004 00 010003'), 20), '0 0')
case('version 2 asked of a version 1 book', fed(SMALL, hx('02 000E 00 0400 02 010000 010001 010002 0000 0000'.replace('000E', '0011')), 20), '0 0')
case('code 4 in version 1', fed(LABELS, hx('01 0008 00 0400 010000 0000'), 20), '14 4')
case('its sort byte is 64', fed(LABELS, hx('02 0008 00 0440 010000 0000'), 20), '13 5')
case('exempt in version 2', fed(hx('02 0003 020100 0003 0001 00'), D, 10), '4 10')


def main(folder):
    evaluator = os.path.join(repository, 'independent/target/release/independent')
    subprocess.run(['cargo', 'build', '--release', '--quiet', '--manifest-path', os.path.join(repository, 'independent/Cargo.toml')], check=True)
    stdin, stdout = b'', ''
    for label, given, end in rows:
        printed = subprocess.run([evaluator, 'expand'], input=given, stdout=subprocess.PIPE, check=True).stdout.decode()
        last = printed.splitlines()[-1]
        assert last == end if end == 'J' else last.startswith('R ' + end + ' '), (label, end, printed)
        stdin += two(len(label)) + label.encode() + two(len(given)) + given
        stdout += label + '\n' + printed
    open(os.path.join(folder, 'stdin'), 'wb').write(stdin)
    open(os.path.join(folder, 'stdout'), 'w', encoding='utf-8').write(stdout)
    print(f'{len(rows)} rows, {len(stdin)} bytes')


if __name__ == '__main__':
    main(sys.argv[1] if len(sys.argv) > 1 else os.path.join(repository, 'crates/expansions'))
