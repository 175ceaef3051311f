# How a walk calls: a callee is called from one item that is held, by a lemma over that item alone (`asks` of crates/run/proofs/WalkSteps.antt), so that the walk's own steps stay few.
from ctx import *

NUMBER = 'usize (Is usize) (uint-makes 𝓤 H A W w64) %s _ (refl, %s)'
def struct(m, x, g): return '%s.the-row (Is %s.the-row) (LL.makes %s.the-type %s′.the-plain 𝓤 H A) %s _ %s' % (m, m, m, m, x, g)
def sends_off(c, callee, known, tokens, owns, asked):
    """The callee's pre of the tokens t and of what is owned, o; then the call. callee: (its contract, its symbol, its module, what its triple binds)."""
    contract, symbol, mod, to = callee
    c.use(2, ['t', 'o'], 'raw (%s .pre %s)' % (contract, to), 'qed W (%s ∷ %s ∷ []) ∵ %s done !' % (tokens, owns, asked), ['pre']); c.nl()
    c.use(1, ['pre'], 'raw (C %s (%s .args %s) (%s .post %s))' % (symbol, contract, to, contract, to), '%s %s' % (known, to), ['call']); c.w('comes-to ! fm (λ w. updating ! $'); c.nl()
def comes_back(c, mod, lifetimes, args, tokens, result, lasts, fact, r='r', e='e'):
    """What it gives once w is returned: the tokens tk, the result r, of which its relation `is` is learned, what it says of r and of the last values e (`said`), and what is bound, lasts. Opens five."""
    c.use(1, ['call'], 'later (some (λ (%s : %s). (%s ⊛ ‵ (%s .own %s (w ∷ []))) ⊛ raw (ensured 𝓤 H A %s.ended (%s.clauses 𝓤 H A mem run) %s %s tt %s)))' % (r, result[0], tokens, result[1], r, mod, mod, lifetimes, args, r), 'id⊢ 𝓤 _', ['back']); c.w('await ! tt $ pick ! (λ %s.' % r); c.nl()
    c.split('back', 'tr', 'ens')
    c.use(1, ['ens'], 'some (λ (%s : %s). ‵ (lasts %s.ended %s %s %s) ⊛ raw (fact 𝓤 (%s)))' % (e, lasts, mod, lifetimes, args, e, fact), 'id⊢ 𝓤 _', ['e']); c.w('pick ! (λ %s.' % e); c.nl()
    c.split('e', 'lasts', 'fact'); c.move('fact'); c.w('heard ! (%s) (λ said.' % fact); c.g.pop(0); c.nl()
    c.split('tr', 'tk', 'res'); c.move('res'); c.w('peeks ! %s (Is %s) (shows 𝓤 H A %s) %s (w ∷ []) (λ is.' % (result[1], result[1], result[1], r)); c.nl()
def last(c, n, eq):
    """The last value of a `&mut` that was lent: fin-n, and that it is as long as it was. Opens one."""
    c.split('lasts', 'q', 'lasts', True); c.split('q', 'fin-' + n, 'eq', True); c.move('eq'); c.w('feqL ! (λ %s.' % eq); c.g.pop(0); c.nl()
def comes_to(c, record, fields, item, opens):
    c.w('at-once ! $ show ! (λ (b : %s w). mean 𝓤 H A (%s)) (record { %s }) $' % (record, item, fields)); c.keep('held'); c.w('done !' + ')' * opens); c.nl()
def plain_call(callee, known, ind, args, vals, types, owns, result, lasts, fact, record, fields):
    """A callee of plain values that asks nothing, from `emp`."""
    c = Ctx(['t'], ind); c.nothing('o')
    for t in reversed(owns): c.owned(t, 'f'); c.join('f', 'o', 'o', True)
    c.nl(); c.move('t', 'o')
    sends_off(c, callee, known, '‵ ftrue', '‵ (owns (%s) %s %s)' % (types, args, vals), 'join ! $ nothing ! $ move ! (1 ∷ 0 ∷ []) $')
    comes_back(c, callee[2], 'tt', args, '‵ ftrue', result, lasts, fact)
    c.g[c.at('tk')] = 'held'
    comes_to(c, record, fields, '‵ ftrue', 5)
    return '\n'.join(c.lines)
def cells(n, bare):
    return '(' + ' ∷ '.join(('bare _ %s' if i in bare else 'full _ %s _') % loc(i) for i in range(n)) + ' ∷ [])'
