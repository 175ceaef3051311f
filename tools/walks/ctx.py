# A walk by hand names what it holds by position, and every step moves it. Here the context is kept by names, and each step is written out
# with its positions; gen_run.py and gen_own.py say the steps.
SUB = '₀₁₂₃₄₅₆₇₈₉'
def loc(i):
    return 'l' + (SUB[i] if i < 10 else chr(ord('a') + i - 10))
def lst(ps):
    return '(' + ' ∷ '.join(str(p) for p in ps) + ' ∷ [])' if ps else '[]'
WIDE = 170
def wrap(t):
    if len(t) <= WIDE: return [t]
    k = t.rfind(' $ ', 0, WIDE)
    if k > 60: return [t[:k + 2]] + wrap(t[k + 3:])
    # a break before an argument, as shallow as can be
    best, depth = None, 0
    for i, ch in enumerate(t[:WIDE]):
        if ch in '({': depth += 1
        if ch in ')}': depth -= 1
        if ch == ' ' and i > 60 and i + 1 < len(t) and t[i + 1] in '(∷':
            if best is None or depth <= best[0]: best = (depth, i)
    if best is None: return [t]
    return [t[:best[1]]] + wrap(t[best[1] + 1:])
class Ctx:
    def __init__(s, g, ind='        '):
        s.g = list(g); s.lines = []; s.cur = ''; s.ind = ind; s.close = 0
    def at(s, n):
        assert s.g.count(n) == 1, (n, s.g)
        return s.g.index(n)
    def w(s, t):           # add text to the current line
        s.cur += (' ' if s.cur else '') + t
    def nl(s):
        if s.cur:
            for t in wrap(s.cur): s.lines.append(s.ind + t)
        s.cur = ''
    def say(s, t):
        s.nl(); s.lines.append(s.ind + '-- ' + t)
    def show(s, upto=None):
        seen = [n for n in s.g if not (n.startswith('d') and n[1:].isdigit())]
        return '[' + '; '.join(seen) + ']'
    def move(s, *ns):
        ps = [s.at(n) for n in ns]
        if ps == list(range(len(ps))) : return
        s.w('move ! %s $' % lst(ps))
        s.g = [s.g[p] for p in ps] + [x for i, x in enumerate(s.g) if i not in ps]
    def keep(s, *ns):
        ps = [s.at(n) for n in ns]
        s.w('keep ! %s $' % lst(ps))
        s.g = [s.g[p] for p in ps]
    def drop(s):
        s.w('drop ! $'); s.g.pop(0)
    def split(s, n, a, b, f=False):
        s.move(n); s.w(('fsplit' if f else 'split') + ' ! $'); s.g[0:1] = [a, b]
    def join(s, a, b, n, f=False):
        s.move(a, b); s.w(('fjoin' if f else 'join') + ' ! $'); s.g[0:2] = [n]
    def nothing(s, n='true'):
        s.w('nothing ! $'); s.g.insert(0, n)
    def owned(s, t, n):
        s.w('owned ! %s $' % t); s.g.insert(0, n)
    def frame(s):
        s.w('frame ! $'); s.g.pop(0)
    def use(s, k, ins, item, lemma, outs):
        s.move(*ins)
        s.w('use%d W (%s) (%s) $' % (k, item, lemma)); s.g[0:k] = outs
    def tail(s):
        return s.cur
def opd_look(c, i):
    return '(load ! (from ! (stop !)) (look ! %d refl))' % c.at('_%d' % i)
def opd_field(c, i, k, d=None):
    e = '{d = %d} ' % d if d is not None else ''
    return '(load ! (from ! (fld ! %srefl (stop !))) (look-in ! %d (sub ! %d %srefl (whole !))))' % (e, c.at('_%d' % i), k, e)
def opds(xs):
    t = '(no-more !)'
    for x in reversed(xs):
        t = '(and-then ! %s %s)' % (x, t)
    return t
def assign(c, rv, i, wt):
    c.w('assigns ! (%s) (from ! (stop !)) (init ! %d refl %s) $' % (rv, c.at('_%d' % i), wt))
def addr_behind(c, i):
    return 'addr ! (from ! (fld ! refl (hop ! (look-in ! %d (sub ! 0 refl (whole !))) (stop !))))' % c.at('_%d' % i)
def slice_of(c, p, i):
    return 'agg ! %s' % opds([opd_look(c, p), opd_field(c, i, 1)])
def locals_(n):
    g = []
    for i in reversed(range(n)): g += ['_%d' % i, 'd%d' % i]
    return g
