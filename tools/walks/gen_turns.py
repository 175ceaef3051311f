# Writes the walk of `turns` (crates/run/proofs/whole/turns/Proof.antt); `rt fmt` comes after. The text around it: turns.txt.
import os
from row_walk import *

HERE = os.path.dirname(os.path.abspath(__file__))
N = 18
AT = ['row', 'rest', 'deaths'] + ['_%d' % i for i in range(N)]
def test(eq):
    assign(c, 'bin ! %s (lit ! tt) tt' % opd_field(c, 10, 0), 11, '(tt, tt)'); c.nl()
    c.w('rewrite ! %d (λ (t : Bool). ‵ (fat fullShare (ty 11) %s 0 (vbool t))) (ap not (%s)) refl $' % (c.at('_11'), loc(11), eq)); c.nl()
# ---- a turn
c = Ctx(AT)
test('ne-eqb (s .standing .left) 0 some-left')
c.w('stays ! %s $' % opd_look(c, 11)); c.nl()
c.say('the nodes, the bytes and the row are taken again')
reborrow(c, 5, 12, 13, 'nodes'); reborrow(c, 6, 14, 15, 'bytes'); reborrow(c, 7, 16, 17, 'list')
c.join('row', 'rest', 'held')
ALL = '(s .nodes-now) (s .bytes-now) (s .row-now) (s .standing)'
c.w('asks-last ! (fmOf 𝓤 H (W .laws) 𝓣) (passed a (s .standing)) (CameBack 𝓤 H A W κs qs a fits RoundAsks RoundSays %s)' % ALL); c.nl()
c.w('(goes-whole 𝓤 H A W κs qs a fits RoundAsks RoundSays C (fmOf 𝓤 H (W .laws) 𝓣) #round known %s (s .same-nodes) (s .same-bytes) (s .same-row) (s .is-standing) asked)' % ALL); c.nl()
c.w('%s (λ w. await ! tt $ pick ! (λ z.' % opds([opd_look(c, i) for i in (1, 2, 3, 4, 13, 15, 17, 10, 9)])); c.nl()
c.say('the standing that `round` returned is the present one')
c.w('let same = LL.tells S.the-type S′.the-laws (z .standing) (w ∷ []) (z .is-standing) in'); c.nl()
c.w('land-last ! (from ! (stop !)) (store ! %d refl (LL.lawful S.the-type S′.the-laws 𝓤 H A W .typed (z .standing) (w ∷ []) (z .is-standing) .0)) $' % c.at('_10')); c.nl()
c.w('rewrite ! %d (λ (u : Val). ‵ (fat fullShare (ty 10) %s 0 u)) (ap only same) refl $' % (c.at('_10'), loc(10))); c.nl()
c.split('held', 'row', 'rest')
assert c.g == AT, c.g
c.w(' '.join('forget ! %d refl $' % c.at('_%d' % i) for i in range(11, N))); c.nl()
c.w('again ! Nearer At s (record {'); c.nl()
for f, t in [(f, 'z .' + f) for f in ('standing', 'nodes-now', 'bytes-now', 'row-now')] + [('is-standing', 'subst (Is S.the-row (z .standing)) same (z .is-standing)')] + [(f, 'z .' + f) for f in ('same-nodes', 'same-bytes', 'same-row')] + [
        ('continues', 'λ m₀ bytes₀ row₀ start fuel rules x started at-first. z .said .1 m₀ bytes₀ row₀ start fuel rules x started\n' + c.ind + '      (s .continues m₀ bytes₀ row₀ start fuel rules x started at-first)')]:
    c.lines.append(c.ind + '  %s = %s;' % (f, t))
c.w('}) (z .said .0)))'); c.nl()
MORE = '\n'.join(c.lines)
# ---- the way out
c = Ctx(AT)
test('eq-eqb (s .standing .left) 0 none')
c.w('leaves-loop ! %s $ exec ! C Λ En M′.t-3 (atRet En Done) $' % opd_look(c, 11)); c.nl()
assign(c, 'of-opd ! ' + opd_look(c, 10), 0, TYPED % ('(s .standing)', '(s .standing)', '(s .is-standing)')); c.nl()
ends(c, N, range(12, N))
c.w('by ! (leaves 𝓤 H A W κs qs a fits TurnsAsks TurnsSays (s .standing) (s .nodes-now) (s .bytes-now) (s .row-now) (s .is-standing) (s .same-nodes) (s .same-bytes) (s .same-row) (none, s .continues))'); c.nl()
OVER = '\n'.join(c.lines)
# ---- to the loop
c = Ctx(locals_(N) + ['toks', 'owns'], '      ')
begins(c, N)
assign(c, 'of-opd ! ' + opd_look(c, 8), 10, TYPED % ('(begun a)', '(begun a)', '(fits .of-begun)')); c.nl()
assert c.g == AT, c.g
LV = ' '.join(loc(i) for i in range(N))
c.w('by ! (begins %s)' % LV + ')' * N); c.nl()
WALK = '\n'.join(c.lines)
VALS = {1: '(sb a)', 2: '(st a)', 3: '(si a)', 4: '(se a)', 5: '(sm a)', 6: '(sa a)', 7: '(sl a)', 8: '(machineS (begun a))', 9: '(vint w64 (places a))', 10: '(machineS (s .standing))'}
CELLS = ' ∷ '.join('full (ty %d) %s %s' % (i, loc(i), VALS[i]) if i in VALS else 'bare (ty %d) %s' % (i, loc(i)) for i in range(N)) + ' ∷ []'
ENV = ' ∷ '.join('(ty %d, %s)' % (i, loc(i)) for i in range(N)) + ' ∷ []'
t = open(os.path.join(HERE, 'turns.txt')).read()
for k, v in [('MORE', MORE), ('OVER', OVER), ('WALK', WALK), ('LOCS', LV), ('ENV', '\n        '.join(wrap(ENV))), ('CELLS', '\n        '.join(wrap(CELLS)))]: t = t.replace('@%s@' % k, v)
open(os.path.join(HERE, '../../crates/run/proofs/whole/turns/Proof.antt'), 'w').write(t)
print(t.count('\n'), 'lines')
