# Writes the walk of `turned` (crates/run/proofs/whole/turned/Proof.antt); `rt fmt` comes after. The text around it: turned.txt.
import os
from row_walk import *

HERE = os.path.dirname(os.path.abspath(__file__))
N = 26
ENTRIES = '(Entries mostEntries)'
VACANT = plain_call(('Vacant 𝓤 H A mem run', '#vacant', 'vacant', '((tt, tt, tt, tt, tt), tt)'), 'known-vacant', '      ', 'tt', 'tt', '[]', [], ('Entry', 'T.the-row'), 'Unit {0}', 'r ≡ lentVacant', 'Vacated', 'entry = r; is = is; is-vacant = said')
GATHER = row_call(('Gather 𝓤 H A mem run', '#gathered', 'gathered', '(to-gather x)'), 'known-gather', '        ', '(gather-args x)', 'usize ∷ usize ∷ usize',
                  [NUMBER % ('(r .head)', 'gh'), NUMBER % ('(r .waiting)', 'gw'), NUMBER % ('(places a)', 'fits .of-places')], 'there', True, 'l', 'same',
                  ('List Entry', ENTRIES), 'Unit {0} × (Unit {0} × (Unit {0} × (Unit {0} × Unit {0})))', 'es ≡ ringed (places a) l (r .head) (r .waiting) ++ replicate (mostEntries - r .waiting) lentVacant',
                  'Waiting', 'entries = es; is = is; waits = said', 'l', 'es')
LAY = row_call(('Lay 𝓤 H A mem run', '#lay', 'lay', '(to-lay x)'), 'known-lay', '        ', '(lay-args x)', '%s ∷ usize' % ENTRIES,
               ['%s (Is %s) (all-made 𝓤 H A W mostEntries) es _ ge' % (ENTRIES, ENTRIES), NUMBER % ('(places a)', 'fits .of-places')], 'there', False, 'l', 'same',
               ('Unit {0}', 'Nothing'), 'List Entry × (Unit {0} × (Unit {0} × Unit {0}))', 'e .0 ≡ Run.over (take (places a) es) l',
               'Laid', 'row = e .0; is-nothing = is; same-row = le ∙ same; laid = said', '(b .row)')
# ---- the walk
c = Ctx(locals_(N) + ['toks', 'owns'])
opens = N
def bind(t):
    global opens
    c.w(t); opens += 1
def called(vs, back, goes, ops, w, x):
    bind('asks ! fm (%s) (%s) (%s)' % (vs, back, goes)); c.nl()
    bind('%s (λ %s. await ! tt $ pick ! (λ %s.' % (opds(ops), w, x)); c.nl()
def lands(i, typed, kind, same, how='init'):
    c.w('land ! (from ! (stop !)) (%s ! %d refl (%s .0)) $' % (how, c.at('_%d' % i), typed)); c.nl()
    if kind: c.w('rewrite ! %d (λ (u : Val). ‵ (fat fullShare %s %s 0 u)) (ap only %s) refl $' % (c.at('_%d' % i), kind, loc(i), same)); c.nl()
begins(c, N)
c.say('a vacant entry is put at the first place')
reborrow(c, 7, 13, 14, 'list')
c.nothing(); called('[]', 'VacantBack', 'vacant-goes', [], 'w', 'e'); c.w('drop ! $'); c.g.pop(0)
c.w('let same = tells (e .entry) (w ∷ []) (e .is) in'); c.nl()
lands(15, 'lawful 𝓤 H A W .typed (e .entry) (w ∷ []) (e .is)', 'T′.mir', 'same')
called('sl a ∷ vint w64 0 ∷ machine (e .entry) ∷ []', 'RowPutBack 𝓤 κs qs a ls 0 (e .entry)',
       'puts-on-row 𝓤 H A W κs qs a fits C fm #put known-put ls 0 (e .entry) refl (omega arith) (subst (Is T.the-row (e .entry)) same (e .is)) (asked .1)', [opd_look(c, 14), '(lit ! tt)', opd_look(c, 15)], 'w₁', 'y')
lands(12, 'nothing-lawful 𝓤 H A W .typed tt (w₁ ∷ []) (y .is-nothing)', None, None)
c.w('let first : y .row ≡ set ls 0 lentVacant = y .there ∙ ap (set ls 0) (e .is-vacant) in'); c.nl()
c.say('the turns, with all that is held')
reborrow(c, 5, 16, 17, 'nodes'); reborrow(c, 6, 18, 19, 'bytes'); reborrow(c, 7, 20, 21, 'list')
c.join('row', 'rest', 'held')
c.w('let there = asked .0 in'); c.nl()
IX = '(now (book a)) (now (table a)) (now (info a)) (now (ends a))'
called('passed a s', 'CameBack 𝓤 H A W κs qs a fits TurnsAsks TurnsSays ms bs (y .row) s',
       'goes-whole 𝓤 H A W κs qs a fits TurnsAsks TurnsSays C fm #turns known-turns ms bs (y .row) s refl refl (y .same-row) (fits .of-begun) (subst (λ (v : List Entry). RunStands %s (places a) ms bs v s) (sym first) there)' % IX,
       [opd_look(c, i) for i in (1, 2, 3, 4, 17, 19, 21, 8, 9)], 'w₂', 'z')
c.w('let r = z .standing in'); c.nl()
c.w('let vs = z .row-now in'); c.nl()
c.w('let same₂ = LL.tells S.the-type S′.the-laws r (w₂ ∷ []) (z .is-standing) in'); c.nl()
c.w('let gr = subst (Is S.the-row r) same₂ (z .is-standing) in'); c.nl()
c.w('let numbers = LL.owed S.the-type S′.the-laws r (machineS r ∷ []) gr in'); c.nl()
G = '%s (there .nodes-lent) (there .bytes-lent) (there .row-lent) (there .start) (there .fuel) (places a)' % IX
c.w('let going : Going %s (z .nodes-now) (z .bytes-now) vs r = z .said .1 (there .nodes-lent) (there .bytes-lent) (there .row-lent) (there .start) (there .fuel) (there .rules) (there .question) (there .started)' % G); c.nl()
c.w('    (subst (λ (v : List Entry). Going %s ms bs v s) (sym first) (there .going)) in' % G); c.nl()
lands(10, 'LL.lawful S.the-type S′.the-laws 𝓤 H A W .typed r (w₂ ∷ []) (z .is-standing)', 'S′.mir', 'same₂')
c.split('held', 'row', 'rest')
c.say('what waits is gathered, with the list lent as a shared one')
reborrow(c, 7, 22, 23, 'list')
called('gather-passed vs (z .same-row) r', 'GatherBack vs (z .same-row) r', 'gather-goes vs (z .same-row) r (numbers .1 .1 .1 .0 .1) (numbers .1 .1 .1 .1 .0 .1) (going .front, going .fits, going .row-places, going .few)',
       [opd_look(c, 23), opd_field(c, 10, 3, 48), opd_field(c, 10, 4, 56), opd_look(c, 9)], 'w₃', 'g')
c.w('let same₃ = all-tells mostEntries (g .entries) (w₃ ∷ []) (g .is) in'); c.nl()
lands(11, 'all-lawful 𝓤 H A W mostEntries .typed (g .entries) (w₃ ∷ []) (g .is)', '(array mostEntries)', 'same₃')
c.say('and is laid in the list')
reborrow(c, 7, 24, 25, 'list')
called('lay-passed vs (g .entries) (z .same-row)', 'LayBack vs (g .entries) (z .same-row)', 'lay-goes vs (g .entries) (z .same-row) (subst (Is %s (g .entries)) same₃ (g .is)) (going .row-places, going .few)' % ENTRIES,
       [opd_look(c, 25), opd_look(c, 11), opd_look(c, 9)], 'w₄', 'x')
lands(12, 'nothing-lawful 𝓤 H A W .typed tt (w₄ ∷ []) (x .is-nothing)', None, None, 'store')
assign(c, 'of-opd ! ' + opd_look(c, 10), 0, TYPED % ('r', 'r', 'gr')); c.nl()
ends(c, N, [])
c.w('by ! (leaves 𝓤 H A W κs qs a fits TurnedAsks TurnedSays r (z .nodes-now) (z .bytes-now) (x .row) gr (z .same-nodes) (z .same-bytes) (x .same-row)'); c.nl()
c.w('(z .said .0, (vs, x .laid ∙ ap (λ (l : List Entry). Run.over (take (places a) l) vs) (g .waits), λ m₀ bytes₀ row₀ start fuel rules q started begins.'); c.nl()
c.w('z .said .1 m₀ bytes₀ row₀ start fuel rules q started (subst (λ (v : List Entry). Going %s m₀ bytes₀ row₀ start fuel (places a) ms bs v s) (sym first) begins))))' % IX + ')' * opens); c.nl()
WALK = '\n'.join(c.lines)
t = open(os.path.join(HERE, 'turned.txt')).read()
for k, v in [('VACANT', VACANT), ('GATHER', GATHER), ('LAY', LAY), ('WALK', WALK)]: t = t.replace('@%s@' % k, v)
open(os.path.join(HERE, '../../crates/run/proofs/whole/turned/Proof.antt'), 'w').write(t)
print(t.count('\n'), 'lines')
