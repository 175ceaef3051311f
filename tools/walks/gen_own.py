# Writes the walk of `run_owned` (crates/run/proofs/whole/run_owned/Proof.antt); `rt fmt` comes after. The text around it: own_head.txt, own_tail.txt.
import os
import ctx
from ctx import *

ctx.WIDE = 142

HERE = os.path.dirname(os.path.abspath(__file__))
HEAD = open(os.path.join(HERE, 'own_head.txt')).read()
TAIL = open(os.path.join(HERE, 'own_tail.txt')).read()
N = 18
ENDS = ['Book', 'κ₀', 'Question', 'Nodes', 'κ₁', 'Answers', 'κ₂']
# ---- exits
c = Ctx(ENDS, '      ')
c.nothing(); c.join('κ₂', 'true', 't'); c.join('κ₁', 't', 't'); c.join('κ₀', 't', 't'); c.frame(); c.nl()
c.nothing(); c.owned('u32 (Is u32) (uint-makes 𝓤 H A W w32) fuel _ (refl, gf)', 'f'); c.join('f', 'true', 'o', True); c.join('Answers', 'o', 'o', True)
c.owned('usize (Is usize) (uint-makes 𝓤 H A W w64) places _ (refl, gp)', 'f'); c.join('f', 'o', 'o', True); c.nl()
c.owned('(Entries held) (Is (Entries held)) (all-made 𝓤 H A W held) ls _ gl', 'f'); c.join('f', 'o', 'o', True); c.nl()
for n in ['Nodes', 'Question', 'Book']: c.join(n, 'o', 'o', True)
c.frame()
c.w('owned ! P.the-row (Is P.the-row) (LL.makes P.the-type P′.the-plain 𝓤 H A) (owning r (handed vs)) _ go $ done !'); c.nl()
EXITS = '\n'.join(c.lines)
# ---- at_most is given numbers, and nothing is asked
c = Ctx(['t'], '      ')
c.nothing('o')
for n, fits in [('held', 'omega arith'), ('places', 'gp')]:
    c.owned('usize (Is usize) (uint-makes 𝓤 H A W w64) %s _ (refl, %s)' % (n, fits), 'f'); c.join('f', 'o', 'o', True)
c.nl(); c.join('t', 'o', 'e'); c.nothing(); c.move('e', 'true'); c.w('done !'); c.nl()
MOST = '\n'.join(c.lines)
# ---- goes
c = Ctx(['T', 'O'], '      ')
c.split('T', 'κ₀', 'r'); c.split('r', 'ν', 'r'); c.split('r', 'υ', 'ν′'); c.nothing()
c.join('ν′', 'true', 't'); c.join('υ', 't', 't'); c.join('ν', 't', 't'); c.join('κ₀', 't', 't'); c.nl()
c.split('O', 'Book', 'r'); c.split('r', 'Question', 'r'); c.split('r', 'N', 'r'); c.split('r', 'L', 'A'); c.nl()
c.nothing(); c.owned('u32 (Is u32) (uint-makes 𝓤 H A W w32) fuel _ (refl, gf)', 'f'); c.join('f', 'true', 'o', True)
for n in ['A', 'L', 'N', 'Question', 'Book']: c.join(n, 'o', 'o', True)
c.nl()
c.join('t', 'o', 'e'); c.nothing(); c.move('e', 'true'); c.w('done !'); c.nl()
GOES = '\n'.join(c.lines)
# ---- the walk
c = Ctx(locals_(N) + ['toks', 'owns'])
c.w(' '.join('alloc1 ! (λ %s.' % loc(i) for i in range(N)) + ' alloc0 ! $ params1 ! $'); c.nl()
opens = N
def passes(i, wt): c.w('pass1 ! (init ! %d refl %s) $' % (c.at('_%d' % i), wt))
sl = lambda g: '(tt, (tt, (record { fits = %s .0 }, tt)))' % g
passes(1, sl('gb')); passes(2, sl('gq')); passes(3, sl('gm')); c.nl(); passes(4, '(all-lawful 𝓤 H A W held .typed ls _ gl .0)'); passes(5, '(tt, record { fits = gp })'); passes(6, sl('ga'))
passes(7, '(tt, record { fits = gf })'); c.w('pass0 ! $'); c.nl()
c.split('owns', 'Book', 'r', True); c.split('r', 'Question', 'r', True); c.split('r', 'Nodes', 'r', True); c.split('r', 'own', 'r', True); c.split('r', 'number', 'r', True); c.split('r', 'Answers', 'r', True)
c.split('toks', 'κ₀', 't'); c.split('t', 'κ₁', 't'); c.split('t', 'κ₂', 't'); c.nl()
HOLDS = ['Book', 'Question', 'κ₀', 'Nodes', 'κ₁', 'Answers', 'κ₂'] + locals_(N)
c.keep(*HOLDS); c.nl()
c.say('[the book; the question; κ₀; the nodes; κ₁; the answers; κ₂; _17; …; _0; …]')
c.say('how many are lent')
ASKED, USED = '(places, (held, tt))', 'count ≡ min held places'
c.nothing()
c.use(1, ['true'], 'raw (Most 𝓤 H A mem run .pre to-most)', 'most-goes', ['pre']); c.nl()
c.w('calls-at ! fm (Most 𝓤 H A mem run) known-most to-most %s (λ w.' % opds([opd_look(c, 5), '(lit ! tt)'])); opens += 1; c.nl()
c.use(1, ['pre'], 'later (some (λ (count : ℕ). (‵ ftrue ⊛ ‵ (usize .own count (w ∷ []))) ⊛ raw (ensured 𝓤 H A most.ended (most.clauses 𝓤 H A mem run) tt %s tt count)))' % ASKED, 'id⊢ 𝓤 _', ['back'])
c.w('await ! tt $ pick ! (λ count.'); opens += 1; c.nl()
c.split('back', 'tr', 'ens')
c.use(1, ['ens'], 'some (λ (ends : Unit {0} × (Unit {0} × Unit {0})). ‵ (lasts most.ended tt %s ends) ⊛ raw (fact 𝓤 (%s)))' % (ASKED, USED), 'id⊢ 𝓤 _', ['e'])
c.w('pick ! (λ ends.'); opens += 1; c.nl()
c.split('e', 'lasts', 'fact'); c.move('fact'); c.w('heard ! (%s) (λ used.' % USED); opens += 1; c.g.pop(0); c.nl()
c.split('tr', 'tk', 'res'); c.move('res'); c.w('peeks ! usize (Is usize) (shows 𝓤 H A usize) count (w ∷ []) (λ is.'); opens += 1; c.nl()
c.w('land ! (from ! (stop !)) (init ! %d refl (uint-lawful 𝓤 H A W w64 .typed count (w ∷ []) is .0)) $' % c.at('_8'))
c.w('rewrite ! %d (λ (u : Val). ‵ (fat fullShare (tyInt w64) %s 0 u)) (ap only (uint-tells w64 count (w ∷ []) is)) refl $' % (c.at('_8'), loc(8))); c.nl()
c.keep(*HOLDS); c.nl()
assign(c, 'of-opd ! ' + opd_look(c, 4), 9, '(all-lawful 𝓤 H A W held .typed ls _ gl .0)'); c.nl()
assign(c, addr_behind(c, 3), 11, '(tt, tt)'); c.nl()
assign(c, slice_of(c, 11, 3), 12, sl('gm')); c.nl()
assign(c, 'addr ! (from ! (stop !))', 13, '(tt, tt)')
assign(c, 'agg ! ' + opds([opd_look(c, 13), opd_look(c, 8)]), 14, '(tt, (tt, (record { fits = is .1 }, tt)))'); c.nl()
c.w('rewrite ! %d (λ (n : ℕ). ‵ (fat fullShare (sliceTy (tyRef erased mut (pointee (T.the-row .written)))) %s 0 (sliceVal (%s, 0) n))) (counted places count ls long used) refl $' % (c.at('_14'), loc(14), loc(9))); c.nl()
assign(c, addr_behind(c, 6), 15, '(tt, tt)'); c.nl()
assign(c, slice_of(c, 15, 6), 16, sl('ga')); c.nl()
c.say('both slices are copied, and the nodes, the answers and the front of the local array are lent for lifetimes of the call')
c.use(1, ['Book'], '‵ (Shared book sb) ⊛ ‵ (Shared book sb)', 'shr-slice-copy 𝓤 H A W (named 0) κ₀ u8 .twice book (sb ∷ [])', ['bb']); c.split('bb', 'Book', 'Book2'); c.nl()
c.use(1, ['Question'], '‵ (Shared question sq) ⊛ ‵ (Shared question sq)', 'shr-slice-copy 𝓤 H A W (named 0) κ₀ u8 .twice question (sq ∷ [])', ['bb']); c.split('bb', 'Question', 'Question2'); c.nl()
c.w('lft-new ! tt (λ ν. lft-new ! tt (λ υ. lft-new ! tt (λ ν′.'); opens += 3
c.g[0:0] = ['ν′', 'υ', 'ν']
c.use(2, ['Nodes', 'κ₁'], 'later (some (λ (δ : GName). ‵ (SentNodes ν δ) ⊛ ‵ (LentAgain u16 κ₁ (ν ∷ []) q₁ γ₁ b₁ o₁ δ ms)))', 'lends-again u16 κ₁ (ν ∷ []) q₁ γ₁ b₁ o₁ 𝓤 H A W (named 1) (named 1) ms', ['nn'])
c.w('await ! tt $ pick ! (λ δ.'); opens += 1; c.split('nn', 'N', 'lentN'); c.nl()
c.use(2, ['Answers', 'κ₂'], 'later (some (λ (δ : GName). ‵ (SentAnswers ν′ δ) ⊛ ‵ (LentAgain u8 κ₂ (ν′ ∷ []) q₂ γ₂ b₂ o₂ δ bs)))', 'lends-again u8 κ₂ (ν′ ∷ []) q₂ γ₂ b₂ o₂ 𝓤 H A W (named 2) (named 3) bs', ['nn'])
c.w('await ! tt $ pick ! (λ δ′.'); opens += 1; c.split('nn', 'A', 'lentA'); c.nl()
L = loc(9)
c.use(1, ['_9'], 'later (some (λ (ε : GName). ‵ (SentList %s υ ε) ⊛ ‵ (LentFront (υ ∷ []) places ls %s ε)))' % (L, L), 'lends-front 𝓤 H A W held ls %s (υ ∷ []) places (named 2) room long gl' % L, ['nn'])
c.w('await ! tt $ pick ! (λ ε.'); opens += 1; c.split('nn', 'L', 'lentL'); c.nl()
c.join('L', 'A', 'o'); c.join('N', 'o', 'o'); c.join('Question2', 'o', 'o'); c.join('Book2', 'o', 'o'); c.join('υ', 'ν′', 't'); c.join('ν', 't', 't'); c.join('κ₀', 't', 't')
TO = 'to-lent %s ν υ ν′ δ ε δ′' % L
KS = '(κ₀, (ν ∷ [], (υ ∷ [], (ν′ ∷ [], tt))))'
ARGS = '(lent-args %s δ ε δ′)' % L
c.use(2, ['t', 'o'], 'raw (Lent 𝓤 H A mem run .pre (%s))' % TO, 'goes %s ν υ ν′ δ ε δ′' % L, ['pre']); c.nl()
c.w('calls-at ! fm (Lent 𝓤 H A mem run) known (%s) %s (λ w′.' % (TO, opds([opd_look(c, i) for i in (1, 2, 12, 14, 16, 7)]))); opens += 1; c.nl()
TOK = '‵ (flft κ₀ q₀) ⊛ ‵ (flft (ν ∷ []) fullShare) ⊛ ‵ (flft (υ ∷ []) fullShare) ⊛ ‵ (flft (ν′ ∷ []) fullShare) ⊛ ‵ ftrue'
c.use(1, ['pre'], 'later (some (λ (r : Outcome). ((%s) ⊛ ‵ (O.the-row .own r (w′ ∷ []))) ⊛ raw (ensured 𝓤 H A lent.ended (lent.clauses 𝓤 H A mem run) %s %s tt r)))' % (TOK, KS, ARGS), 'id⊢ 𝓤 _', ['back'])
c.w('await ! tt $ pick ! (λ r.'); opens += 1; c.nl()
c.split('back', 'tr', 'ens')
SAID = 'Said r (us .1 .1 .0) (us .1 .1 .1 .0) (us .1 .1 .1 .1 .0)'
c.use(1, ['ens'], 'some (λ (us : LentLasts). ‵ (lasts lent.ended %s %s us) ⊛ raw (fact 𝓤 (%s)))' % (KS, ARGS, SAID), 'id⊢ 𝓤 _', ['e'])
c.w('pick ! (λ us.'); opens += 1; c.nl()
c.split('e', 'lasts', 'fact'); c.move('fact'); c.w('heard ! (%s) (λ said.' % SAID); opens += 1; c.g.pop(0)
c.split('lasts', 'b', 'r', True); c.split('r', 'q', 'r', True); c.split('r', 'n', 'r', True); c.split('n', 'finN', 'eq', True); c.move('eq'); c.w('feqL ! (λ su.'); opens += 1; c.g.pop(0); c.nl()
c.split('r', 'l', 'r', True); c.split('l', 'finL', 'eq', True); c.move('eq'); c.w('feqL ! (λ sv.'); opens += 1; c.g.pop(0)
c.split('r', 'a', 'r', True); c.split('a', 'finA', 'eq', True); c.move('eq'); c.w('feqL ! (λ sc.'); opens += 1; c.g.pop(0); c.nl()
c.split('tr', 'tk', 'res'); c.move('res'); c.w('peeks ! O.the-row (Is O.the-row) (shows 𝓤 H A O.the-row) r (w′ ∷ []) (λ is′.'); opens += 1; c.nl()
c.w('let same = LL.tells O.the-type O′.the-laws r (w′ ∷ []) is′ in'); c.nl()
c.w('land ! (from ! (stop !)) (init ! %d refl (LL.lawful O.the-type O′.the-laws 𝓤 H A W .typed r (w′ ∷ []) is′ .0)) $' % c.at('_10'))
c.w('rewrite ! %d (λ (u : Val). ‵ (fat fullShare O′.mir %s 0 u)) (ap only same) refl $' % (c.at('_10'), loc(10))); c.nl()
c.say('the lifetimes are ended: the nodes and the answers come back, and the front with what is behind it is the array again')
c.split('tk', 'κ₀', 't'); c.split('t', 'ν', 't'); c.split('t', 'υ', 't'); c.split('t', 'ν′', 't')
c.move('ν'); c.w('lft-end ! tt $'); c.g[0] = 'dead'; c.nl()
c.use(3, ['dead', 'lentN', 'finN'], 'later (‵ (Nodes (us .1 .1 .0)) ⊛ ‵ (flft κ₁ q₁))', 'comes-back u16 κ₁ (ν ∷ []) q₁ γ₁ b₁ o₁ 𝓤 H A W (named 1) (named 1) ms δ (us .1 .1 .0) gm su', ['nn']); c.w('await ! tt $'); c.split('nn', 'Nodes', 'κ₁'); c.nl()
c.move('ν′'); c.w('lft-end ! tt $'); c.g[0] = 'dead'
c.use(3, ['dead', 'lentA', 'finA'], 'later (‵ (Answers (us .1 .1 .1 .1 .0)) ⊛ ‵ (flft κ₂ q₂))', 'comes-back u8 κ₂ (ν′ ∷ []) q₂ γ₂ b₂ o₂ 𝓤 H A W (named 2) (named 3) bs δ′ (us .1 .1 .1 .1 .0) ga sc', ['nn']); c.w('await ! tt $'); c.split('nn', 'Answers', 'κ₂'); c.nl()
c.move('υ'); c.w('lft-end ! tt $'); c.g[0] = 'dead'; c.nl()
F, V = '(us .1 .1 .1 .0)', '(handed (us .1 .1 .1 .0))'
c.use(3, ['dead', 'lentL', 'finL'], 'later (given (Is (Entries held) %s (machines %s)) (‵ (Whole held %s %s)))' % (V, V, V, L), 'front-back 𝓤 H A W held ls %s (υ ∷ []) places ε %s sv long' % (L, F), ['_9']); c.w('await ! tt $ learn ! (λ gv.'); opens += 1; c.nl()
c.keep('Book', 'κ₀', 'Question', 'Nodes', 'κ₁', 'Answers', 'κ₂', *locals_(N)); c.nl()
c.w('let go = made r %s (subst (Is O.the-row r) same is′) gv in' % V); c.nl()
assign(c, 'of-opd ! ' + opd_look(c, 9), 17, '(all-lawful 𝓤 H A W held .typed %s _ gv .0)' % V); c.nl()
assign(c, 'agg ! ' + opds([opd_look(c, 10), opd_look(c, 17)]), 0, '(LL.lawful P.the-type P′.the-laws 𝓤 H A W .typed (owning r %s) _ go .0)' % V); c.nl()
c.w('returns ! (look ! %d refl) $' % c.at('_0')); c.w(' '.join('forget ! %d refl $' % c.at('_%d' % i) for i in reversed(range(N)))); c.nl()
for i in range(N):
    c.move('_%d' % i, 'd%d' % i); c.w('free1 ! $'); c.g = c.g[2:]
    if i % 6 == 5: c.nl()
c.w('free0 ! $'); c.nl()
assert c.g == ENDS, c.g
c.w('by ! (exits r (us .1 .1 .0) %s (us .1 .1 .1 .1 .0) go su sv sc said)' % F + ')' * opens); c.nl()
WALK = '\n'.join(c.lines)
t = HEAD.replace('@EXITS@', EXITS).replace('@MOST@', MOST).replace('@GOES@', GOES).replace('@WALK@', WALK) + TAIL
open(os.path.join(HERE, '../../crates/run/proofs/whole/run_owned/Proof.antt'), 'w').write(t)
print(t.count('\n'), 'lines')
