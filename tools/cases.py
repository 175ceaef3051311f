"""What the scripts of the tables of runs have in common (edge_cases.py, row_cases.py, going_cases.py): the bytes of books and questions, nodes,
entries and records as the documents write them, checksums of memory, and the independent evaluator."""
import os
import subprocess

here = os.path.dirname(os.path.abspath(__file__))
repository = os.path.join(here, '..')

# Which of requests L7 and L10 the proved programs have, as LANDED of independent/src/requests.rs has it: none, 7, 10 or 7,10.
LANDED = 'none'

# How long each memory of the programs is, lent or not.
NUMBERS, PLACES, BYTES = 32010, 100, 16400


# ---- bytes of books and questions

def two(n):
    return bytes([n // 256, n % 256])


def four(n):
    return n.to_bytes(4, 'big')


def part(body):
    return two(len(body)) + body


def hx(text):
    return bytes.fromhex(text.replace(' ', ''))


def symbol(kind, *arguments):
    """A symbol of sort 0, all arguments of sort 0."""
    return bytes([2 + len(arguments), kind, 0, *arguments])


def constructor(arguments=0):
    return symbol(0, *[0] * arguments)


def operation(arguments=0):
    return symbol(1, *[0] * arguments)


def book(symbols, trees, version=1):
    return bytes([version]) + part(b''.join(symbols)) + part(b''.join(part(t) for t in trees))


def asked(expression, version=1):
    return bytes([version]) + part(b'\x00' + expression)


def apply(f, *arguments):
    return b'\x01' + two(f) + b''.join(arguments)


def choice(a, b):
    return b'\x02' + a + b


FAIL = b'\x03'


def share(first, body):
    """Request L8: a shared part of sort 0."""
    return b'\x04\x00' + first + body


def var(x):
    return bytes([0, x])


def rule(expression):
    return b'\x01' + expression


def branch(x, *trees):
    return bytes([2, x]) + b''.join(trees)


def times(f, count, inner):
    for _ in range(count):
        inner = apply(f, inner)
    return inner


# ---- nodes, entries and records as the documents write them

def node(kind, label, *arrows):
    return [kind, label] + list(arrows) + [0] * (8 - len(arrows))


def n_apply(f, *arrows):
    return node(0, f, *arrows)


def n_choice(c, left, right):
    return node(1, c, left, right)


N_FAIL = node(2, 0)


def n_forward(to):
    return node(3, 0, to)


OPEN, LEFT, RIGHT, BOTH = range(4)


class Left:
    """What a run leaves: nodes (ten numbers each), the waiting entries (root, {choice: side}, and behind that the question's number if it is not 0), the
    answers, and how many places behind the nodes were vacated (request L10). None for what is not known."""

    def __init__(self, nodes, waiting, answers, vacated=0):
        self.nodes, self.waiting, self.answers, self.vacated = nodes, waiting, answers, vacated


class Answers:
    """The answer bytes, and the line of each answer."""

    def __init__(self, written, lines):
        self.written, self.lines = written, lines


def record(symbols, decisions, question=None):
    """A record and its line; in the layout of request L3 the question's number stands behind the length, and in front of the line."""
    numbers = [2 * c + (decisions[c] == RIGHT) for c in sorted(decisions)]
    body = two(len(symbols)) + b''.join(two(n) for n in symbols + numbers)
    line = ' '.join(['A'] + [str(n) for n in symbols] + ['|'] + [str(n) for n in numbers])
    if question is not None:
        body, line = two(question) + body, f'{question} {line}'
    return two(len(body)) + body, line


def answers(*records, version=1):
    return Answers(bytes([version]) + b''.join(written for written, _ in records), [line for _, line in records])


def arrows_of(one, arities):
    """How many arrows of a node are used."""
    return {0: lambda: arities[one[1]], 1: lambda: 2, 2: lambda: 0, 3: lambda: 1}[one[0]]()


def dropped(nodes, waiting, arities):
    """Request L10: the nodes that the entries can reach, moved down in their order, and the entries; `arities` of the symbols."""
    reached, ways = set(), [e[0] for e in waiting]
    while ways:
        n = ways.pop()
        if n not in reached:
            reached.add(n)
            ways += nodes[n][2:2 + arrows_of(nodes[n], arities)]
    new = {old: i for i, old in enumerate(sorted(reached))}
    kept = []
    for old in sorted(reached):
        one = list(nodes[old])
        for a in range(2, 2 + arrows_of(one, arities)):
            one[a] = new[one[a]]
        kept.append(one)
    return kept, [(new[e[0]],) + tuple(e[1:]) for e in waiting]


# ---- the small book and D (dup of False or True), with what is left after each of its ten turns

SMALL = hx('01 0012 020000 020000 0401000000 020100 03010000 0021'
           '000F 0200 010001 0201 01010001 01010000 0004 01010003 0008 0101000200000000')
D = hx('01 000B 00 010004 02 010000 010001')
FALSE, TRUE, XOR, LOOP, DUP = range(5)
SMALL_ARITIES = [0, 0, 2, 0, 1]
assert len(SMALL) == 56


def d_after(turns, version=1):
    """Loaded: 0 dup(1), 1 choice 0 (2, 3), 2 False, 3 True; then one line for each turn."""
    nodes = [n_apply(DUP, 1), n_choice(0, 2, 3), n_apply(FALSE), n_apply(TRUE)]
    waiting = [(0, {})]
    written = []
    l, r = {0: LEFT}, {0: RIGHT}
    question = None if version == 1 else 0
    if turns >= 1:  # dup's rule: xor of its argument's arrow twice, in its own node
        nodes[0] = n_apply(XOR, 1, 1)
    if turns >= 2:  # xor looks at its first argument, a choice: pulled up, nodes 4 and 5
        nodes[0] = n_choice(0, 4, 5)
        nodes += [n_apply(XOR, 2, 1), n_apply(XOR, 3, 1)]
    if turns >= 3:  # the split
        waiting = [(4, l), (5, r)]
    if turns >= 4:  # xor of False and y is y: a forward
        nodes[4] = n_forward(1)
        waiting = [(5, r), (4, l)]
    if turns >= 5:  # xor of True looks at its second argument, a choice: pulled up, nodes 6 and 7
        nodes[5] = n_choice(0, 6, 7)
        nodes += [n_apply(XOR, 3, 2), n_apply(XOR, 3, 3)]
        waiting = [(4, l), (5, r)]
    if turns >= 6:  # behind the forward the choice, decided left
        waiting = [(5, r), (2, l)]
    if turns >= 7:  # decided right
        waiting = [(2, l), (7, r)]
    if turns >= 8:  # False is written
        waiting = [(7, r)]
        written = [record([FALSE], l, question)]
    if turns >= 9:  # xor of True and True
        nodes[7] = n_apply(FALSE)
    if turns >= 10:  # False is written once more
        waiting = []
        written = [record([FALSE], l, question), record([FALSE], r, question)]
    return Left(nodes, waiting, answers(*written, version=version))


# ---- checksums of all the memory that a program has

def checksum(numbers):
    c = 0
    for v in numbers:
        c = (c * 31 + v) % 4294967296
    return c


def entry(root, decisions, question=0):
    """The numbers of an entry: its root, its question's number, its decisions."""
    return [root, question] + [decisions.get(c, 0) for c in range(256)]


# What the list's places hold before a run.
PLACE_MARK = entry(7, {3: LEFT, 200: RIGHT}, 5)


def whole(used, mark, length):
    return used + [mark] * (length - len(used))


def sums(left, places, questions):
    """The checksums after a run that left this (None: it touched nothing), with so many places lent; `?` for what is not known. The number of a question
    is among an entry's numbers only if `questions` says so."""
    nodes, entries, written = [], [], b''
    if left and left.nodes is not None:
        nodes = [n for one in left.nodes for n in one] + [0] * (10 * left.vacated)
        entries = [entry(*e) for e in left.waiting]
        entries += [entry(0, {})] * (min(places, 64) - len(entries))
    if left and left.answers is not None:
        written = left.answers.written
    entries += [PLACE_MARK] * (PLACES - len(entries))
    numbers = (n for e in entries for i, n in enumerate(e) if questions or i != 1)
    found = [checksum(whole(nodes, 48879, NUMBERS)), checksum(numbers), checksum(whole(list(written), 170, BYTES))]
    if left and left.nodes is None:
        found[:2] = '??'
    if left and left.answers is None:
        found[2] = '?'
    return 'nodes {} list {} bytes {}'.format(*found)


def as_known(line, hand):
    """The evaluator's line, with a `?` for each word that is not known by hand."""
    words, known = line.split(' '), hand.split(' ')
    return ' '.join('?' if k == '?' else w for w, k in zip(words, known)) if len(words) == len(known) else line


# ---- the independent evaluator

def evaluator(requests):
    """Builds it; gives a function that runs it with these words and this input."""
    target = os.environ.get('CARGO_TARGET_DIR') or os.path.join(os.environ.get('TMPDIR', '/tmp'), 'independent-target')
    subprocess.run(['cargo', 'build', '--quiet', '--release', '--offline'], cwd=os.path.join(repository, 'independent'), check=True,
                   env=dict(os.environ, CARGO_TARGET_DIR=target))

    def run(*words, given=b''):
        words = [os.path.join(target, 'release', 'independent'), *words, '--requests', requests]
        return subprocess.run(words, input=given, stdout=subprocess.PIPE, stderr=subprocess.DEVNULL, check=True).stdout
    return run


def options(words, landed):
    """The requests and the folder that a script was called with, with these if none are named."""
    requests, folder = landed, None
    words = list(words)
    while words:
        word = words.pop(0)
        if word == '--requests':
            requests = words.pop(0)
        else:
            folder = word
    assert requests in ('none', '7', '10', '7,10'), requests
    return requests, folder


def put_files(folder, stdin, stdout):
    with open(os.path.join(folder, 'stdin'), 'wb') as f:
        f.write(stdin)
    with open(os.path.join(folder, 'stdout'), 'wb') as f:
        f.write(stdout)
