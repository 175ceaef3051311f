# What the walks of `round`, `turns` and `turned` have in common (crates/run/proofs/RowWalk.antt): how a walk begins and how it ends.
# The context of a walk: [the row; the rest of what is held; the locals' deaths; _0; _1; …].
from calls import *

def fits(n): return '(tt, (tt, (record { fits = fits .of-%s .0 }, tt)))' % n
TYPED = '(LL.lawful S.the-type S′.the-laws 𝓤 H A W .typed %s (machineS %s ∷ []) %s .0)'
def begins(c, n):
    """The n locals are allocated and the nine parameters stored."""
    c.w(' '.join('alloc1 ! (λ %s.' % loc(i) for i in range(n)) + ' alloc0 ! $ params1 ! $'); c.nl()
    def passes(i, wt): c.w('pass1 ! (init ! %d refl %s) $' % (c.at('_%d' % i), wt))
    passes(1, fits('book')); passes(2, fits('table')); passes(3, '(tt, tt)'); passes(4, '(tt, tt)'); c.nl()
    passes(5, fits('nodes')); passes(6, fits('bytes')); passes(7, fits('list')); c.nl()
    passes(8, TYPED % ('(begun a)', '(begun a)', '(fits .of-begun)')); passes(9, '(tt, record { fits = fits .of-places })'); c.w('pass0 ! $'); c.nl()
    c.use(2, ['toks', 'owns'], 'Held 𝓤 κs qs a (now (nodes a)) (now (bytes a)) (now (list a))', 'enters 𝓤 H A W κs qs a', ['held']); c.split('held', 'row', 'rest'); c.nothing(); c.nl()
    c.keep(*['d%d' % i for i in range(n)], 'true', 'row', 'rest', *['_%d' % i for i in range(n)]); c.w('group ! %d $' % (n + 1)); c.g[0:n + 1] = ['deaths']
    c.move('row', 'rest'); c.nl()
def ends(c, n, bare):
    """The locals are freed, of which these were never written."""
    c.w('returns ! (look ! %d refl) $' % c.at('_0')); c.move('row', 'rest'); c.w('join ! $ releases W _ %s $' % cells(n, bare)); c.nl()
def reborrow(c, src, p, i, n):
    """`&mut *src` or `&*src`: the pointer p, the slice i."""
    assign(c, addr_behind(c, src), p, '(tt, tt)'); c.nl()
    assign(c, slice_of(c, p, src), i, fits(n)); c.nl()
def row_call(callee, known, ind, args, types, owns, asked, seen, l, same, result, lasts, fact, record, fields, back, r='r'):
    """How a callee on the list, which is l, is called: the list is lent for the call, under the name x, and comes back.
    args: its parameters; types, owns: those behind the list; result: (type, own); lasts: the type of what is bound; fact: what it says of r and e; record, fields: what has come back."""
    c = Ctx(['row'], ind)
    T, O = '(‵ (flft (x .0 ∷ []) fullShare) ⊛ ‵ ftrue)', '‵ (owns (%s (named 0) (x .0 ∷ []) T.the-row ∷ %s ∷ []) %s (%s .0 .4))' % ('ShrSlice' if seen else 'MutSlice', types, args, callee[3])
    n = '𝓤 H A W κs qs a fits (named 0) %s %s' % (l, same)
    c.use(1, ['row'], 'later (some (%s 𝓤 κs qs a (named 0) %s))' % ('SeenRow' if seen else 'SentRow', l), '%s %s' % ('shows-row' if seen else 'sends-row', n), ['q']); c.w('await ! tt $ pick ! (λ x.')
    c.split('q', 'L', 'q'); c.split('q', 'υ', 'lent'); c.nl()
    c.nothing(); c.join('υ', 'true', 't'); c.nothing(); o = 'true'
    for t in reversed(owns): c.owned(t, 'f'); c.join('f', o, 'o', True); o = 'o'; c.nl()
    c.join('L', 'o', 'o', True); c.nl()
    sends_off(c, callee, known, T, O, 'says ! %s $' % asked)
    comes_back(c, callee[2], '(x .0 ∷ [], tt)', args, T, result, lasts, fact, r)
    if not seen: last(c, 'L', 'le')
    c.split('tk', 'υ', 't')
    if seen: c.use(2, ['υ', 'lent'], 'later (KeepsRow 𝓤 κs qs a %s)' % l, 'row-seen %s x' % n, ['held'])
    else: c.use(3, ['υ', 'lent', 'fin-L'], 'later (KeepsRow 𝓤 κs qs a (e .0))', 'row-back %s x (e .0) le' % n, ['held'])
    c.w('await ! tt $'); c.nl()
    comes_to(c, record, fields, 'KeepsRow 𝓤 κs qs a %s' % back, 6 + (not seen))
    return '\n'.join(c.lines)
