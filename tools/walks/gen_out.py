# Writes the walk of `played_out` (crates/run/proofs/whole/played_out/Proof.antt); `rt fmt` comes after. The text around it: out.txt.
import os
from calls import *

HERE = os.path.dirname(os.path.abspath(__file__))
N = 20
KEPT = ['nodes', 'bytes', 'list', 'Book', 'κ₀']
def apart(c, h):
    for n in KEPT[:-1]: c.split(h, n, h)
    c.g[c.at(h)] = 'κ₀'; c.nl()
def together(c):
    c.join('Book', 'κ₀', 'h')
    for n in ['list', 'bytes', 'nodes']: c.join(n, 'h', 'h')
    c.nl()
# ---- exits and enters
c = Ctx(['h'], '      ')
apart(c, 'h')
for n, k in [('nodes', 'κ₁'), ('bytes', 'κ₂'), ('list', 'κ₃')]: c.split(n, n, k)
c.nl(); c.nothing()
for k in ['κ₃', 'κ₂', 'κ₁', 'κ₀']: c.join(k, 'true', 'true')
c.frame(); c.nl()
c.nothing(); c.owned(NUMBER % ('places', 'gp'), 'f'); c.join('f', 'true', 'o', True)
for n in ['list', 'bytes', 'nodes']: c.join(n, 'o', 'o', True)
c.nl()
c.owned(struct('B', 'p', 'gP'), 'f'); c.join('f', 'o', 'o', True); c.join('Book', 'o', 'o', True); c.frame(); c.nl()
c.w('owned ! %s $ done !' % struct('S', 'r', 'gr')); c.nl()
EXITS = '\n'.join(c.lines)
c = Ctx(['toks', 'owns'], '      ')
for n in ['Book', 'own-p', 'nodes', 'bytes', 'list']: c.split('owns', n, 'owns', True)
for k in ['κ₀', 'κ₁', 'κ₂', 'κ₃']: c.split('toks', k, 'toks')
c.nl()
for n, k in [('nodes', 'κ₁'), ('bytes', 'κ₂'), ('list', 'κ₃')]: c.join(n, k, n)
together(c); c.keep('h'); c.w('done !'); c.nl()
ENTERS = '\n'.join(c.lines)
# ---- turned is called: the arrays are lent shared, and with them all is held that it asks
ARR = [  # local, field, offset, length, list, its fact, the pointer's local, lifetime, name, where
    dict(l=7, f=4, o=88, n=1024, x='(p .at)', g='gat', r=10, k='τ', d='δt', N='Table', q=1, at='lt'),
    dict(l=8, f=5, o=2136, n=1024, x='(p .info)', g='gin', r=12, k='ι', d='δi', N='Info', q=2, at='li'),
    dict(l=9, f=6, o=4184, n=32768, x='(p .ends)', g='gen', r=13, k='η', d='δe', N='Ends', q=3, at='le')]
c = Ctx(['held'], '        ')
c.split('held', 'h', 'held'); c.split('held', '_7', 'held'); c.split('held', '_8', '_9'); c.nl()
opens = 0
for m in ARR:
    L = m['at']
    if m['l'] == 7:
        own = 'ShrSlice (named 1) (τ ∷ []) u16 .own (lent %s γ table) (sliceVal (%s, 0) (length table) ∷ [])' % (L, L)
        m['lent'] = 'LentFront (τ ∷ []) (p .count) (p .at) %s' % L
        law = 'shares-front 𝓤 H A W 1024 (p .at) %s (named 1) (τ ∷ []) (p .count) room-for gat' % L
    else:
        own = 'ShrRef (named %d) (%s ∷ []) (Numbers %d) .own (lent %s γ %s) (vptr %s 0 ∷ [])' % (m['q'], m['k'], m['n'], L, m['x'], L)
        m['lent'] = 'LentWhole (%s ∷ []) %d %s %s' % (m['k'], m['n'], m['x'], L)
        law = 'shares-array 𝓤 H A W %d %s %s (named %d) (%s ∷ []) %s' % (m['n'], m['x'], L, m['q'], m['k'], m['g'])
    c.w('lft-new ! tt (λ %s.' % m['k']); c.g.insert(0, m['k'])
    c.use(1, ['_%d' % m['l']], 'later (some (λ (γ : GName). ‵ (%s) ⊛ ‵ (%s)))' % (own, m['lent']), law, ['q'])
    c.w('await ! tt $ pick ! (λ %s.' % m['d']); c.split('q', m['N'], 'lent' + m['N']); c.nl(); opens += 2
apart(c, 'h')
c.join('Info', 'Ends', 'r'); c.join('Table', 'r', 'r'); c.join('Book', 'r', 'r'); c.join('ι', 'η', 't'); c.join('τ', 't', 't'); c.join('κ₀', 't', 't'); c.join('r', 't', 'h')
for n in ['bytes', 'nodes', 'list']: c.join(n, 'h', 'h')
c.nl()
AT = 'τ ι η δt δi δe'
ROW = '𝓤 H A W (κs %s) (qs %s) (to-turned %s) (fitting gs gt %s) TurnedAsks TurnedSays' % (AT, AT, AT, AT)
c.use(1, ['h'], 'later (raw (C #turned turned-passed (λ w. mean 𝓤 H A (CameBack %s ms bs ls (p .standing) w))))' % ROW, 'goes-whole %s C fm #turned known ms bs ls (p .standing) refl refl refl gs (asked .0, asked .1)' % ROW, ['call']); c.w('await ! tt $'); c.nl()
c.w('comes-to ! fm (λ w. updating ! $'); opens += 1
c.use(1, ['call'], 'CameBack %s ms bs ls (p .standing) w' % ROW, 'id⊢ 𝓤 _', ['h']); c.w('await ! tt $ pick ! (λ z.'); opens += 1; c.nl()
for n in ['list', 'nodes', 'bytes', 'refs']: c.split('h', n, 'h')
c.split('refs', 'Book', 'rest')
for k in ['κ₀', 'τ', 'ι']: c.split('h', k, 'h')
c.g[c.at('h')] = 'η'; c.nl()
c.say('the arrays are back in their locals')
for m in ARR:
    L = m['at']
    c.move(m['k']); c.w('lft-end ! tt $'); c.g[0] = 'dead'
    law = ('front-back 𝓤 H A W 1024 (p .at) %s (named 1) (τ ∷ []) (p .count) (gat .1 .0 .1)' % L) if m['l'] == 7 else 'array-back 𝓤 H A W %d %s %s (named %d) (%s ∷ [])' % (m['n'], m['x'], L, m['q'], m['k'])
    c.use(2, ['dead', 'lent' + m['N']], 'later (‵ (Whole %d %s %s))' % (m['n'], m['x'], L), law, ['_%d' % m['l']]); c.w('await ! tt $'); c.nl()
together(c); c.join('_8', '_9', 'held'); c.join('_7', 'held', 'held'); c.join('h', 'held', 'held')
comes_to(c, 'Returned', 'standing = z .standing; nodes-now = z .nodes-now; bytes-now = z .bytes-now; list-now = z .row-now; is = z .is-standing; same-nodes = z .same-nodes; same-bytes = z .same-bytes; same-list = z .same-row; said = z .said',
         'Held (b .nodes-now) (b .bytes-now) (b .list-now) ⊛ Arrays', opens)
GOES = '\n'.join(c.lines)
# ---- the walk
c = Ctx(locals_(N) + ['toks', 'owns'])
c.w(' '.join('alloc1 ! (λ %s.' % loc(i) for i in range(N)) + ' alloc0 ! $ params1 ! $'); c.nl()
opens = N
def bind(t):
    global opens
    c.w(t); opens += 1
def passes(i, wt): c.w('pass1 ! (init ! %d refl %s) $' % (c.at('_%d' % i), wt))
sl = lambda g: '(tt, (tt, (record { fits = %s .0 }, tt)))' % g
passes(1, sl('gb')); passes(2, '(LL.lawful B.the-type B′.the-laws 𝓤 H A W .typed p (machineB p ∷ []) gP .0)'); c.nl()
passes(3, sl('gm')); passes(4, sl('ga')); passes(5, sl('gl')); passes(6, '(tt, record { fits = gp })'); c.w('pass0 ! $'); c.nl()
LOCALS = ['_%d' % i for i in range(N)]
c.use(2, ['toks', 'owns'], 'Held ms bs ls', 'enters', ['h']); c.nothing(); c.nl()
c.keep(*['d%d' % i for i in range(N)], 'true', 'h', *LOCALS); c.w('group ! %d $' % (N + 1)); c.g[0:N + 1] = ['deaths']; c.move('h'); c.nl()
c.say('the three arrays are read out of what was begun')
for m in ARR:
    assign(c, 'of-opd ! ' + opd_field(c, 2, m['f'], m['o']), m['l'], '(array-lawful 𝓤 H A W u16 (uint-lawful 𝓤 H A W w16) %d .typed %s _ %s .0)' % (m['n'], m['x'], m['g'].replace('g', 'r', 1))); c.nl()
    c.w('rewrite ! %d (λ (u : Val). ‵ (fat fullShare (lone (Numbers %d .mir)) %s 0 u)) (ap only %s) refl $' % (c.at('_%d' % m['l']), m['n'], loc(m['l']), m['g'].replace('g', 's', 1))); c.nl()
for m in ARR:
    assign(c, 'addr ! (from ! (stop !))', m['r'], '(tt, tt)'); c.nl()
    if m['l'] == 7:
        assign(c, 'agg ! ' + opds([opd_look(c, 10), opd_field(c, 2, 3, 80)]), 11, '(tt, (tt, (record { fits = parts .1 .1 .1 .0 .1 }, tt)))'); c.nl()
        c.w('rewrite ! %d (λ (n : ℕ). ‵ (fat fullShare (sliceTy (tyRef erased imm (tyInt w16))) %s 0 (sliceVal (%s, 0) n))) (sym many) refl $' % (c.at('_11'), loc(11), loc(7))); c.nl()
for i, p, v, n in [(3, 14, 15, 'gm'), (4, 16, 17, 'ga'), (5, 18, 19, 'gl')]:
    assign(c, addr_behind(c, i), p, '(tt, tt)'); c.nl()
    assign(c, slice_of(c, p, i), v, sl(n)); c.nl()
c.say('they are lent with all that is held')
c.join('_8', '_9', 'x'); c.join('_7', 'x', 'x'); c.join('h', 'x', 'held'); c.nl()
T = '%s %s %s' % (loc(7), loc(8), loc(9))
c.w('asks ! fm (turned-passed %s) (TurnedBack %s) (turned-goes %s (parts .0) gat gin gen many) %s (λ w. await ! tt $ pick ! (λ z.' % (T, T, T, opds([opd_look(c, i) for i in (1, 11, 12, 13, 15, 17, 19)] + [opd_field(c, 2, 0), opd_look(c, 6)]))); c.nl()
c.w('let same = LL.tells S.the-type S′.the-laws (z .standing) (w ∷ []) (z .is) in'); c.nl()
c.w('land ! (from ! (stop !)) (init ! %d refl (LL.lawful S.the-type S′.the-laws 𝓤 H A W .typed (z .standing) (w ∷ []) (z .is) .0)) $' % c.at('_0')); c.nl()
c.w('rewrite ! %d (λ (u : Val). ‵ (fat fullShare S′.mir %s 0 u)) (ap only same) refl $' % (c.at('_0'), loc(0))); c.nl()
c.split('held', 'h', 'held'); c.split('held', '_7', 'held'); c.split('held', '_8', '_9'); c.keep('h', 'deaths', *LOCALS); c.nl()
c.w('returns ! (look ! %d refl) $ releases W _ %s $' % (c.at('_0'), cells(N, []))); c.nl()
c.w('by ! (exits (z .standing) (z .nodes-now) (z .bytes-now) (z .list-now) (subst (Is S.the-row (z .standing)) same (z .is)) (z .same-nodes) (z .same-bytes) (z .same-list) (z .said))' + ')' * (N + 2)); c.nl()
WALK = '\n'.join(c.lines)
t = open(os.path.join(HERE, 'out.txt')).read()
for k, v in dict(EXITS=EXITS, ENTERS=ENTERS, GOES=GOES, WALK=WALK).items(): t = t.replace('@%s@' % k, v)
open(os.path.join(HERE, '../../crates/run/proofs/whole/played_out/Proof.antt'), 'w').write(t)
print(t.count('\n'), 'lines')
