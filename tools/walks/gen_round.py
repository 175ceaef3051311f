# Writes the walk of `round` (crates/run/proofs/whole/round/Proof.antt); `rt fmt` comes after. The text around it: round.txt.
import os
from row_walk import *

HERE = os.path.dirname(os.path.abspath(__file__))
N = 25
def apart(c, n, names):
    for x in names[:-1]: c.split(n, x, n)
    i = c.at(n); c.g[i] = names[-1]
STANDING = struct('S', '(begun a)', '(fits .of-begun)')
ENTRY = 'T.the-row (Is T.the-row) (made 𝓤 H A W) e _ ge'
opens = 0
def bind(t):
    global opens
    c.w(t); opens += 1
def closed(): return '\n'.join(c.lines)
FRONT = row_call(('Front 𝓤 H A mem run', '#front', 'front', '(to-front x)'), 'known-front', '      ', '(front-args x)', 'usize', [NUMBER % ('(s .head)', 'gh')], 'inside', True, 'ls', 'refl',
                 ('Entry', 'T.the-row'), 'Unit {0} × (Unit {0} × Unit {0})', 'r ≡ getD ls (s .head) lentVacant', 'Read', 'entry = r; is = is; there = said', 'ls')
# ---- played is called
c = Ctx(['rest'], '      ')
c.split('rest', 'nodes', 'm'); c.split('m', 'bytes', 'm'); c.split('m', 'refs', 'toks')
c.use(1, ['refs'], 'Refs 𝓤 κs a ⊛ Refs 𝓤 κs a', 'copies 𝓤 H A W κs a', ['rr']); c.split('rr', 'refs', 'sent'); c.nl()
for n, x, ms in [('nodes', 'x', 'ms'), ('bytes', 'y', 'bs')]:
    c.use(1, [n], 'later (some (Sent%s 𝓤 κs qs a %s))' % (n.capitalize(), ms), 'sends-%s 𝓤 H A W κs qs a fits %s refl' % (n, ms), ['q']); bind('await ! tt $ pick ! (λ %s.' % x)
    c.split('q', n[0], 'q'); c.split('q', 'ν' + x, 'lent' + x); c.nl()
K = ['κ' + SUB[i] for i in range(4)]
SHARED = ['Book', 'Table', 'Info', 'Ends']
apart(c, 'toks', K); c.nothing(); t = 'true'
for k in ['νy', 'νx'] + K[::-1]: c.join(k, t, 't'); t = 't'
c.nl()
apart(c, 'sent', SHARED); c.nothing(); c.owned(NUMBER % ('(places a)', 'fits .of-places'), 'f'); c.join('f', 'true', 'o', True); c.nl()
c.owned(ENTRY, 'f'); c.join('f', 'o', 'o', True); c.owned(STANDING, 'f'); c.join('f', 'o', 'o', True); c.nl()
for n in ['b', 'n'] + SHARED[::-1]: c.join(n, 'o', 'o', True)
c.nl()
sends_off(c, ('Play 𝓤 H A mem run', '#played', 'played', '(to-play x y)'), 'known-play', 'PlayTokens x y', '‵ (PlayOwns x y)', 'says ! (ls, asked .0, there, asked .1) $')
US, CS = '(us .1 .1 .1 .1 .0)', '(us .1 .1 .1 .1 .1 .0)'
comes_back(c, 'played', '(play-lifetimes x y)', '(play-args x y)', 'PlayTokens x y', ('Placing', 'P.the-row'), 'PlayLasts', 'of-all Plays a ms bs s e %s %s p' % (US, CS), 'p', 'us')
for n in 'btin': c.split('lasts', 'last-' + n, 'lasts', True)
last(c, 'x', 'lu'); last(c, 'y', 'lc')
for n in K + ['νx', 'νy']: c.split('tk', n, 'tk')
c.nl()
for n, x, ms, zs, eq in [('nodes', 'x', 'ms', US, 'lu'), ('bytes', 'y', 'bs', CS, 'lc')]:
    c.use(3, ['ν' + x, 'lent' + x, 'fin-' + x], 'later (Keeps%s 𝓤 κs qs a %s)' % (n.capitalize(), zs), '%s-back 𝓤 H A W κs qs a fits %s refl %s %s %s' % (n, ms, x, zs, eq), [n]); c.w('await ! tt $'); c.nl()
c.join('κ₂', 'κ₃', 's'); c.join('κ₁', 's', 's'); c.join('κ₀', 's', 'held')
for n in ['refs', 'bytes', 'nodes']: c.join(n, 'held', 'held')
c.nl()
comes_to(c, 'Played e', 'placing = p; nodes-now = %s; bytes-now = %s; is = is; same-nodes = lu; same-bytes = lc; plays = said' % (US[1:-1], CS[1:-1]), 'Rest 𝓤 κs qs a (b .nodes-now) (b .bytes-now)', opens + 7)
PLAY = closed(); # ---- the walk
c = Ctx(locals_(N) + ['toks', 'owns'])
opens = N
begins(c, N)
c.say('the front entry is read, with the list lent as a shared one')
reborrow(c, 7, 14, 15, 'list')
bind('asks ! fm (sl a ∷ vint w64 (s .head) ∷ []) ReadBack (front-goes (numbers .1 .1 .1 .0 .1) inside) %s (λ w. await ! tt $ pick ! (λ e.' % opds([opd_look(c, 15), opd_field(c, 8, 3, 48)])); opens += 1; c.nl()
c.w('let same = tells (e .entry) (w ∷ []) (e .is) in'); c.nl()
c.w('let ge = subst (Is T.the-row (e .entry)) same (e .is) in'); c.nl()
c.w('land ! (from ! (stop !)) (init ! %d refl (lawful 𝓤 H A W .typed (e .entry) (w ∷ []) (e .is) .0)) $' % c.at('_10')); c.nl()
c.w('rewrite ! %d (λ (u : Val). ‵ (fat fullShare T′.mir %s 0 u)) (ap only same) refl $' % (c.at('_10'), loc(10))); c.nl()
c.say('its turn, with the nodes and the bytes')
reborrow(c, 5, 16, 17, 'nodes'); reborrow(c, 6, 18, 19, 'bytes')
c.move('rest')
bind('asks ! fm (play-passed (e .entry)) (PlayedBack (e .entry)) (play-goes (e .entry) ge (e .there)) %s (λ w′. await ! tt $ pick ! (λ t.' % opds([opd_look(c, i) for i in (1, 2, 3, 4, 17, 19, 8, 10, 9)])); opens += 1
c.nl()
c.w('let p = t .placing in'); c.nl()
c.w('let parts = LL.owed P.the-type P′.the-laws p (w′ ∷ []) (t .is) in'); c.nl()
c.w('land ! (from ! (stop !)) (init ! %d refl (LL.lawful P.the-type P′.the-laws 𝓤 H A W .typed p (w′ ∷ []) (t .is) .0)) $' % c.at('_11')); c.nl()
c.w('rewrite ! %d (λ (u : Val). ‵ (fat fullShare P′.mir %s 0 u)) (ap only (LL.tells P.the-type P′.the-laws p (w′ ∷ []) (t .is))) refl $' % (c.at('_11'), loc(11))); c.nl()
c.move('row'); c.nl()
def puts(k, field, off, place, off2, dest, p, i, gi, ge, l, same, inside, names, how):
    """entry `field` of the answer is put at `place` of the list, which is l"""
    w, y = names
    assign(c, 'of-opd ! ' + opd_field(c, 11, k, off), dest, '(lawful 𝓤 H A W .typed (p .%s) (machine (p .%s) ∷ []) %s .0)' % (field, field, ge)); c.nl()
    reborrow(c, 7, p, i, 'list')
    bind('asks ! fm (sl a ∷ vint w64 (p .%s) ∷ machine (p .%s) ∷ []) (RowPutBack 𝓤 κs qs a %s (p .%s) (p .%s))' % (place, field, l, place, field)); c.nl()
    c.w('(puts-on-row 𝓤 H A W κs qs a fits C fm #put known-put %s (p .%s) (p .%s) %s %s %s %s)' % (l, place, field, same, gi, ge, inside)); c.nl()
    c.w('%s (λ %s. await ! tt $ pick ! (λ %s.' % (opds([opd_look(c, i), opd_field(c, 11, off2[0], off2[1]), opd_look(c, dest)]), w, y)); c.nl()
    c.w('land ! (from ! (stop !)) (%s ! %d refl (nothing-lawful 𝓤 H A W .typed tt (%s ∷ []) (%s .is-nothing) .0)) $' % (how, c.at('_20'), w, y)); c.nl()
c.say('its two entries are put in their places')
c.w('let one-in : p .place < length ls = omega (arith, within, t .plays .0) in'); c.nl()
puts(2, 'first', 72, 'place', (1, 64), 12, 21, 22, '(parts .1 .0 .1)', '(parts .1 .1 .0)', 'ls', 'refl', 'one-in', ('w₁', 'y'), 'init'); opens += 1
c.w('let two-in : p .behind < length (y .row) = omega (arith, within, t .plays .1, y .same-row) in'); c.nl()
puts(4, 'second', 152, 'behind', (3, 144), 13, 23, 24, '(parts .1 .1 .1 .0 .1)', '(parts .1 .1 .1 .1 .0)', '(y .row)', '(y .same-row)', 'two-in', ('w₂', 'z'), 'store'); opens += 1
assign(c, 'of-opd ! ' + opd_field(c, 11, 0), 0, TYPED % ('(p .standing)', '(p .standing)', '(parts .0)')); c.nl()
ends(c, N, [])
c.w('by ! (leaves 𝓤 H A W κs qs a fits RoundAsks RoundSays (p .standing) (t .nodes-now) (t .bytes-now) (z .row) (parts .0) (t .same-nodes) (t .same-bytes) (z .same-row)'); c.nl()
c.w('(keeps (now (book a)) (now (table a)) (now (info a)) (now (ends a)) (places a) ms bs ls s (e .entry) (t .nodes-now) (t .bytes-now) p (y .row) (z .row) (t .plays) (e .there) (y .there) (z .there)))' + ')' * opens); c.nl()
WALK = closed()
t = open(os.path.join(HERE, 'round.txt')).read().replace('@FRONT@', FRONT).replace('@PLAY@', PLAY).replace('@WALK@', WALK)
open(os.path.join(HERE, '../../crates/run/proofs/whole/round/Proof.antt'), 'w').write(t)
print(t.count('\n'), 'lines')
