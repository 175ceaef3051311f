"""Headings with their broader terms as a book of document 01, and the question which terms stand above one.

The book's symbols are the headings in their order, then `broader`, `above` and `up`:
    broader(heading) = one of its broader terms (a choice); exempt if it has none
    above(x) = up(broader(x))        up(heading) = that heading, or above(it)
"""


def two(n):
    return bytes([n // 256, n % 256])


def counted(body):
    return two(len(body)) + body


def apply(symbol, *arguments):
    return b'\1' + two(symbol) + b''.join(arguments)


def one_of(terms):
    return terms[0] if len(terms) == 1 else b'\2' + terms[0] + one_of(terms[1:])


def asked(expression):
    return b'\1' + counted(b'\0' + expression)


def book_of(headings):
    """The book of {heading: [broader term, ..]}, and the symbol `above`."""
    names = list(headings)
    broader, above, up = len(names), len(names) + 1, len(names) + 2
    variable = b'\0\0'
    symbols = b'\2\0\0' * len(names) + b'\3\1\0\0' * 3
    cases = b''
    for terms in headings.values():
        cases += b'\1' + one_of([apply(names.index(t)) for t in terms]) if terms else b'\0'
    itself_or_above = b'\1\2' + variable + apply(above, variable)
    trees = [b'\2\0' + cases, b'\1' + apply(up, apply(broader, variable)), b'\2\0' + itself_or_above * len(names)]
    return b'\1' + counted(symbols) + counted(b''.join(counted(t) for t in trees)), above


def terms_above(above, heading):
    """The question which terms stand above the heading of this number."""
    return asked(apply(above, apply(heading)))
