# Writes the walk of `gathered` (crates/run/proofs/whole/gathered/Proof.antt); `rt fmt` comes after. The text around it: gathered_head.txt.
import os
from ctx import *
HERE = os.path.dirname(os.path.abspath(__file__))
T = open(os.path.join(HERE, 'gathered_head.txt')).read()
N = 14
def usz(c, v, g, o):
    c.owned('usize (Is usize) (uint-makes 𝓤 H A W w64) %s _ (refl, %s)' % (v, g), 'f'); c.join('f', o, 'o', True)
def out(c): c.nl(); return '\n'.join(c.lines)
# exits
c = Ctx(['Lent', 'κ'], '      ')
c.nothing(); c.join('κ', 'true', 't'); c.nothing('o'); usz(c, 'places', 'gp', 'o'); usz(c, 'n', 'gn', 'o'); c.nl(); usz(c, 'head', 'gh', 'o'); c.join('Lent', 'o', 'o', True)
c.move('t', 'o'); c.frame(); c.frame(); c.w('owned ! (Entries mostEntries) (Is (Entries mostEntries)) (all-made 𝓤 H A W mostEntries) es _ are $ done !')
EXITS = out(c)
# vacant-goes
c = Ctx(['t'], '      ')
c.nothing('o'); c.join('t', 'o', 'e'); c.nothing(); c.move('e', 'true'); c.w('done !'); VACANT = out(c)
# wrap-goes
c = Ctx(['t'], '      ')
c.nothing('o'); usz(c, 'places', 'gp', 'o'); usz(c, 'k', 'gk', 'o'); c.nl(); c.join('t', 'o', 'e'); c.nothing(); c.move('e', 'true'); c.w('done !'); WRAP = out(c)
# read-goes
c = Ctx(['Lent', 'κ'], '      ')
c.nothing(); c.join('κ', 'true', 't'); c.frame(); c.nothing('o'); usz(c, 'j', 'gj', 'o'); c.join('Lent', 'o', 'o', True); c.w('done !'); READ = out(c)

ALL = ['Lent', 'κ', 'Row'] + [x for x in locals_(N) if x != '_5']
NAMES = ' '.join(loc(i) for i in range(N))
def cell(c, i, v, eq):
    c.w('rewrite ! %d (λ (u : Val). ‵ (fat fullShare (ty %d) %s 0 u)) (%s) refl $' % (c.at('_%d' % i), i, loc(i), eq)); c.nl()
def call(c, contract, known, ghost, ops, w):
    c.w('calls-at ! (fmOf 𝓤 H (W .laws) 𝓣) (%s 𝓤 H A mem run) %s %s %s (λ %s.' % (contract, known, ghost, opds(ops), w)); c.nl()
# a turn
c = Ctx(ALL); opens = 0
def test(c, lemma):
    c.w('assigns ! (bin ! %s %s tt) (from ! (stop !)) (init ! %d refl (tt, tt)) $' % (opd_look(c, 6), opd_look(c, 3), c.at('_9'))); c.nl()
    c.w('rewrite ! %d (λ (t : Bool). ‵ (fat fullShare (ty 9) l₉ 0 (vbool t))) (%s) refl $' % (c.at('_9'), lemma)); c.nl()
test(c, 'lt-ltb i n less')
c.w('stays ! %s $' % opd_look(c, 9)); c.nl()
c.say('the place of the next entry')
assign(c, 'bin ! %s %s (record { fits = gk })' % (opd_look(c, 2), opd_look(c, 6)), 11, '(tt, record { fits = gk })'); c.nl()
c.nothing('pre')
c.use(1, ['pre'], 'raw (Wrap 𝓤 H A mem run .pre (to-wrap (head + i)))', 'wrap-goes (head + i) gk', ['pre']); c.nl()
call(c, 'Wrap', 'known-wrap', '(to-wrap (head + i))', [opd_look(c, 11), opd_look(c, 4)], 'w'); opens += 1
c.use(1, ['pre'], 'later (some (λ (j : ℕ). (‵ ftrue ⊛ ‵ (usize .own j (w ∷ []))) ⊛ raw (ensured 𝓤 H A wrap.ended (wrap.clauses 𝓤 H A mem run) tt (head + i, (places, tt)) tt j)))', 'id⊢ 𝓤 _', ['back'])
c.w('await ! tt $ pick ! (λ j.'); opens += 1; c.nl()
c.split('back', 'tr', 'ens')
c.use(1, ['ens'], 'some (λ (us : Unit {0} × (Unit {0} × Unit {0})). ‵ (lasts wrap.ended tt (head + i, (places, tt)) us) ⊛ raw (fact 𝓤 (j ≡ wrapped places (head + i))))', 'id⊢ 𝓤 _', ['e'])
c.w('pick ! (λ us.'); opens += 1; c.nl()
c.split('e', 'lasts', 'fact'); c.move('fact'); c.w('heard ! (j ≡ wrapped places (head + i)) (λ placed.'); opens += 1; c.g.pop(0)
c.split('tr', 'tk', 'res'); c.move('res'); c.w('peeks ! usize (Is usize) (shows 𝓤 H A usize) j (w ∷ []) (λ is.'); opens += 1; c.nl()
c.w('let gj : j < 2 ^ 64 = is .1 in'); c.nl()
c.w('let held : j < length ys = subst (λ (m : ℕ). m < length ys) (sym placed) (omega (arith, wrapped-there places (head + i) (omega (arith, front, inside)), within)) in'); c.nl()
c.w('land ! (from ! (stop !)) (init ! %d refl (uint-lawful 𝓤 H A W w64 .typed j (w ∷ []) is .0)) $' % c.at('_10')); c.nl()
cell(c, 10, None, 'ap only (is .0)')
c.keep(*ALL); c.nl()
c.say('the entry there')
c.use(1, ['Lent'], '‵ Lent ⊛ ‵ Lent', 'shr-slice-copy 𝓤 H A W (named 0) κ T.the-row .twice x (slice ∷ [])', ['LL']); c.split('LL', 'Lent', 'Sent')
c.use(2, ['Sent', 'κ'], 'raw (Read 𝓤 H A mem run .pre (to-read j))', 'read-goes j gj held', ['pre']); c.nl()
call(c, 'Read', 'known-read', '(to-read j)', [opd_look(c, 1), opd_look(c, 10)], 'v'); opens += 1
c.use(1, ['pre'], 'later (some (λ (e : Entry). ((‵ (flft κ q) ⊛ ‵ ftrue) ⊛ ‵ (T.the-row .own e (v ∷ []))) ⊛ raw (ensured 𝓤 H A entry.ended (entry.clauses 𝓤 H A mem run) (κ, tt) (x, (j, tt)) tt e)))', 'id⊢ 𝓤 _', ['back'])
c.w('await ! tt $ pick ! (λ e.'); opens += 1; c.nl()
c.split('back', 'tr', 'ens')
c.use(1, ['ens'], 'some (λ (us : Unit {0} × (Unit {0} × Unit {0})). ‵ (lasts entry.ended (κ, tt) (x, (j, tt)) us) ⊛ raw (fact 𝓤 (e ≡ getD ys j lentVacant)))', 'id⊢ 𝓤 _', ['e'])
c.w('pick ! (λ us.'); opens += 1; c.nl()
c.split('e', 'lasts', 'fact'); c.move('fact'); c.w('heard ! (e ≡ getD ys j lentVacant) (λ read.'); opens += 1; c.g.pop(0)
c.split('tr', 'tk', 'res'); c.split('tk', 'κ', 'tk'); c.move('res'); c.w('peeks ! T.the-row (Is T.the-row) (shows 𝓤 H A T.the-row) e (v ∷ []) (λ es-is.'); opens += 1; c.nl()
c.w('let is-e : Is T.the-row e (machine e ∷ []) = subst (Is T.the-row e) (tells e (v ∷ []) es-is) es-is in'); c.nl()
c.w('let typed = lawful 𝓤 H A W .typed e (machine e ∷ []) is-e .0 in'); c.nl()
c.w('land ! (from ! (stop !)) (init ! %d refl (lawful 𝓤 H A W .typed e (v ∷ []) es-is .0)) $' % c.at('_7')); c.nl()
cell(c, 7, None, 'ap only (tells e (v ∷ []) es-is)')
c.keep(*ALL); c.nl()
c.say('it is put behind those gathered')
c.w('assigns ! (bin ! %s (lit ! tt) (record { fits = far })) (from ! (stop !)) (store ! %d refl (tt, record { fits = far })) $' % (opd_look(c, 6), c.at('_10'))); c.nl()
assign(c, 'addr ! (from ! (stop !))', 12, '(tt, tt)'); c.nl()
assign(c, 'bin ! %s %s tt' % (opd_look(c, 12), opd_look(c, 10)), 13, '(tt, tt)'); c.nl()
c.w('rewrite ! %d (λ (p : ℕ). ‵ (fat fullShare tyPtr ld 0 (vptr l₅ p))) (sym (place-is 72 0 i)) refl $' % c.at('_13')); c.nl()
c.move('Row'); c.w('elem-out ! T.the-row (Is T.the-row) (shows 𝓤 H A T.the-row) vals tells fullShare es i lentVacant l₅ 0 there (λ _.'); opens += 1; c.nl()
c.g[0:1] = ['cell', 'own', 'others']
c.w('assigns ! (of-opd ! %s) (from ! (hop ! (look ! %d refl) (stop !))) (store-raw ! %d refl typed) $' % (opd_look(c, 7), c.at('_13'), c.at('cell'))); c.nl()
c.move('own'); c.drop(); c.owned('T.the-row (Is T.the-row) (made 𝓤 H A W) e _ is-e', 'own'); c.move('cell', 'own', 'others')
c.w('elem-put ! T.the-row fullShare es i e (machine e ∷ []) l₅ 0 there $'); c.g[0:3] = ['Row']; c.nl()
c.w('rewrite ! %d (λ (l : List Entry). ‵ (Row l l₅)) (gathered-more places ys head i j e front inside small placed read) refl $' % c.at('Row')); c.nl()
c.w('assigns-last ! (bin ! %s (lit ! tt) (record { fits = next })) (from ! (stop !)) (store ! %d refl (tt, record { fits = next })) $' % (opd_look(c, 6), c.at('_6'))); c.nl()
c.w(' '.join('forget ! %d refl $' % c.at('_%d' % i) for i in (13, 12, 11, 10, 9, 7))); c.nl()
c.keep(*ALL); c.nl()
c.w('again ! Nearer At s (i + 1, omega arith) (omega arith)' + ')' * opens)
MORE = out(c)
# the way out
c = Ctx(ALL); opens = 0
test(c, 'le-ltb i n past')
c.w('leaves-loop ! %s $ exec ! C Λ En M′.t-5 (atRet En Post) $' % opd_look(c, 9)); c.nl()
c.w('rewrite ! %d (λ (k : ℕ). ‵ (Row (zs k) l₅)) here refl $' % c.at('Row'))
c.use(1, ['Row'], '‵ (Whole mostEntries (zs n) l₅) ⊛ ‵ ((Entries mostEntries) .own (zs n) (machines (zs n)))', 'whole-again 𝓤 H A W mostEntries (zs n) l₅ (gathered-length places ys head n (omega (arith, fits, few)))', ['w']); c.split('w', '_5', 'own'); c.nl()
c.move('own'); c.w('peeks ! (Entries mostEntries) (Is (Entries mostEntries)) (shows 𝓤 H A (Entries mostEntries)) (zs n) (machines (zs n)) (λ are.'); opens += 1; c.nl()
assign(c, 'of-opd ! ' + opd_look(c, 5), 0, '(all-lawful 𝓤 H A W mostEntries .typed (zs n) (machines (zs n)) are .0)'); c.nl()
c.w('returns ! (look ! %d refl) $' % c.at('_0'))
c.w(' '.join('forget ! %d refl $' % c.at('_%d' % i) for i in (9, 6, 5, 4, 3, 2, 1, 0))); c.nl()
for i in range(N):
    c.move('_%d' % i, 'd%d' % i); c.w('free1 ! $'); c.g = c.g[2:]
    if i % 6 == 5: c.nl()
c.w('free0 ! $'); c.keep('Lent', 'κ'); c.w('by ! (exits (zs n) (are-gathered places ys head n) are)' + ')' * opens)
LAST = out(c)
# to the loop
c = Ctx(locals_(N) + ['toks', 'owns'], '      '); opens = N
c.w(' '.join('alloc1 ! (λ %s.' % loc(i) for i in range(N)) + ' alloc0 ! $ params1 ! $'); c.nl()
def passes(i, wt): c.w('pass1 ! (init ! %d refl %s) $' % (c.at('_%d' % i), wt))
passes(1, '(tt, (tt, (record { fits = room .0 }, tt)))'); passes(2, '(tt, record { fits = gh })'); passes(3, '(tt, record { fits = gn })'); c.nl(); passes(4, '(tt, record { fits = gp })'); c.w('pass0 ! $'); c.nl()
c.nothing('pre')
c.use(1, ['pre'], 'raw (Vacant 𝓤 H A mem run .pre to-vacant)', 'vacant-goes', ['pre']); c.nl()
call(c, 'Vacant', 'known-vacant', 'to-vacant', [], 'w'); opens += 1
c.use(1, ['pre'], 'later (some (λ (e : Entry). (‵ ftrue ⊛ ‵ (T.the-row .own e (w ∷ []))) ⊛ raw (ensured 𝓤 H A vacant.ended (vacant.clauses 𝓤 H A mem run) tt tt tt e)))', 'id⊢ 𝓤 _', ['back'])
c.w('await ! tt $ pick ! (λ e.'); opens += 1; c.nl()
c.split('back', 'tr', 'ens')
c.use(1, ['ens'], 'some (λ (us : Unit {0}). ‵ (lasts vacant.ended tt tt us) ⊛ raw (fact 𝓤 (e ≡ lentVacant)))', 'id⊢ 𝓤 _', ['e'])
c.w('pick ! (λ us.'); opens += 1
c.split('e', 'lasts', 'fact'); c.move('fact'); c.w('heard ! (e ≡ lentVacant) (λ said.'); opens += 1; c.g.pop(0); c.nl()
c.split('tr', 'tk', 'res'); c.move('res'); c.w('peeks ! T.the-row (Is T.the-row) (shows 𝓤 H A T.the-row) e (w ∷ []) (λ is.'); opens += 1; c.nl()
c.w('land ! (from ! (stop !)) (init ! %d refl (lawful 𝓤 H A W .typed e (w ∷ []) is .0)) $' % c.at('_8')); c.nl()
c.use(1, ['res'], '‵ ((Entries mostEntries) .own (replicate mostEntries e) (arrayVal (replicate mostEntries w) ∷ []))', 'array-repeat 𝓤 H A W T.the-row (LL.copy T.the-type T′.the-copy 𝓤 H A W) mostEntries e w', ['res']); c.nl()
c.w('peeks ! (Entries mostEntries) (Is (Entries mostEntries)) (shows 𝓤 H A (Entries mostEntries)) (replicate mostEntries e) (arrayVal (replicate mostEntries w) ∷ []) (λ are.'); opens += 1; c.nl()
for t in ['let same = all-tells mostEntries (replicate mostEntries e) (arrayVal (replicate mostEntries w) ∷ []) are in',
          'let blank : replicate mostEntries e ≡ zs 0 = ap (λ (d : Entry). replicate mostEntries d) said ∙ none-gathered places ys head in',
          'let are-zs : Is (Entries mostEntries) (zs 0) (machines (zs 0)) = subst (λ (l : List Entry). Is (Entries mostEntries) l (machines l)) blank (subst (Is (Entries mostEntries) (replicate mostEntries e)) same are) in']:
    c.w(t); c.nl()
assign(c, 'rep ! 64 ' + opd_look(c, 8), 5, '(all-lawful 𝓤 H A W mostEntries .typed (replicate mostEntries e) (arrayVal (replicate mostEntries w) ∷ []) are .0)'); c.nl()
cell(c, 5, None, 'ap only same ∙ ap (λ (l : List Entry). only (machines l)) blank')
assign(c, 'of-opd ! (lit ! tt)', 6, '(tt, record { fits = omega arith })'); c.nl()
c.use(1, ['_5'], '‵ (Row (zs 0) l₅)', 'apart 𝓤 H A W mostEntries (zs 0) l₅ are-zs', ['Row']); c.w('forget ! %d refl $' % c.at('_8')); c.nl()
c.split('owns', 'Lent', 'r', True); c.split('toks', 'κ', 't'); c.keep(*ALL); c.nl()
c.w('by ! (begins 𝓣 known-vacant known-wrap known-read %s)' % NAMES + ')' * opens)
WALK = out(c)
for k, v in dict(EXITS=EXITS, VACANT=VACANT, WRAP=WRAP, READ=READ, MORE=MORE, LAST=LAST, WALK=WALK).items():
    T = T.replace('@%s@' % k, v)
open(os.path.join(HERE, '../../crates/run/proofs/whole/gathered/Proof.antt'), 'w').write(T)
