# Writes the walk of `run` (crates/run/proofs/whole/run/Proof.antt); `rt fmt` comes after. The text around it: run.txt.
import os
from calls import *

HERE = os.path.dirname(os.path.abspath(__file__))
N = 22
FUEL = 'u32 (Is u32) (uint-makes 𝓤 H A W w32) fuel _ (refl, gf)'
sl = lambda g: '(tt, (tt, (record { fits = %s .0 }, tt)))' % g
KEPT = ['nodes', 'list', 'answers', 'book', 'question', 'κ₀']
def apart(c):
    """What is held, in its parts."""
    for n in KEPT[:-1]: c.split('held', n, 'held')
    c.g[c.at('held')] = 'κ₀'; c.nl()
def together(c):
    c.join('question', 'κ₀', 'held')
    for n in ['book', 'answers', 'list', 'nodes']: c.join(n, 'held', 'held')
    c.nl()
# ---- exits and enters
c = Ctx(['held'], '      ')
apart(c)
for n, k in [('nodes', 'κ₁'), ('list', 'κ₂'), ('answers', 'κ₃')]: c.split(n, n, k)
c.nl(); c.nothing()
for n in ['κ₃', 'κ₂', 'κ₁', 'κ₀']: c.join(n, 'true', 'true')
c.frame(); c.nl()
c.nothing(); c.owned(FUEL, 'f'); c.join('f', 'true', 'o', True)
for n in ['answers', 'list', 'nodes', 'question', 'book']: c.join(n, 'o', 'o', True)
c.frame(); c.nl()
c.w('owned ! %s $ done !' % struct('O', 'r', 'go')); c.nl()
EXITS = '\n'.join(c.lines)
c = Ctx(['toks', 'owns'], '      ')
for n in ['book', 'question', 'nodes', 'list', 'answers']: c.split('owns', n, 'owns', True)
for n in ['κ₀', 'κ₁', 'κ₂', 'κ₃']: c.split('toks', n, 'toks')
c.nl()
for n, k in [('nodes', 'κ₁'), ('list', 'κ₂'), ('answers', 'κ₃')]: c.join(n, k, n)
together(c); c.keep('held'); c.w('done !'); c.nl()
ENTERS = '\n'.join(c.lines)
# ---- places_of and outcome_of
PLACES = plain_call(('Places 𝓤 H A mem run', '#places', 'places-of', 'to-places'), 'known-places', '      ', '(length ls, tt)', '(to-places .0 .4)', 'usize ∷ []', [NUMBER % ('(length ls)', 'gl .0')],
                    ('ℕ', 'usize'), 'Unit {0} × Unit {0}', 'r ≡ min mostEntries (length ls)', 'Counted', 'places = r; is = is; used = said')
RESULT = plain_call(('Result 𝓤 H A mem run', '#outcome', 'outcome', 'to-result'), 'known-result', '        ', '(s, (k, tt))', '(to-result .0 .4)', 'S.the-row ∷ usize ∷ []', [struct('S', 's', 'gs'), NUMBER % ('k', 'gk')],
                    ('Outcome', 'O.the-row'), 'Unit {0} × (Unit {0} × Unit {0})', 'r ≡ outcomeAt s k', 'Made', 'outcome = r; is = is; is-result = said')
# ---- begun and played_out, to which what is held is lent
LENT = {'nodes': ('u16 (named 1) κ₁ q₁ γ₁ b₁ o₁ (length ms) 𝓤', 'x', '(named 1)', 'gm', 'KeepsNodes'), 'answers': ('u8 (named 3) κ₃ q₃ γ₃ b₃ o₃ (length bs) 𝓤', 'y', '(named 2)', 'ga', 'KeepsAnswers'),
        'list': ('N.the-row (named 2) κ₂ q₂ γ₂ b₂ o₂ (length ls) 𝓤', 'z', '(named 3)', 'gl', 'KeepsList')}
def lend(c, n, l, same):
    of, x, name, room, keeps = LENT[n]
    c.use(1, [n], 'later (some (Sent %s %s %s))' % (of, name, l), 'sends %s H A W %s %s %s' % (of, name, l, same), ['q']); c.w('await ! tt $ pick ! (λ %s.' % x); c.split('q', 'sent-' + n, 'q'); c.split('q', 'ν' + x, 'lent-' + n); c.nl()
def back(c, n, l, same, l2, eq):
    of, x, name, room, keeps = LENT[n]
    c.use(3, ['ν' + x, 'lent-' + n, 'fin-' + n], 'later (%s %s)' % (keeps, l2), 'sent-back %s H A W %s %s %s %s %s %s %s' % (of, name, l, same, x, l2, room, eq), [n]); c.w('await ! tt $'); c.nl()
def copy(c, n, v):
    c.use(1, [n], '‵ (Shared %s %s) ⊛ ‵ (Shared %s %s)' % (n, v, n, v), 'shr-slice-copy 𝓤 H A W (named 0) κ₀ u8 .twice %s (%s ∷ [])' % (n, v), ['q']); c.split('q', n, n + '2'); c.nl()
def tokens(c, names):
    c.nothing('t')
    for n in reversed(names): c.join(n, 't', 't')
    c.nl()
c = Ctx(['held'], '        ')
apart(c); copy(c, 'book', 'sb'); copy(c, 'question', 'sq')
lend(c, 'nodes', 'ms', 'refl'); lend(c, 'answers', 'bs', 'refl'); tokens(c, ['κ₀', 'νx', 'νy'])
c.nothing('o'); c.owned(NUMBER % ('places', 'gp'), 'f'); c.join('f', 'o', 'o', True); c.owned(FUEL, 'f'); c.join('f', 'o', 'o', True); c.nl()
for n in ['sent-answers', 'sent-nodes', 'question2', 'book2']: c.join(n, 'o', 'o', True)
c.nl()
sends_off(c, ('Begun 𝓤 H A mem run', '#begun', 'begun', '(to-begun x y)'), 'known-begun', 'BegunTokens x y', '‵ (BegunOwns x y)', 'says ! few $')
comes_back(c, 'begun', '(begun-lifetimes x y)', '(begun-args x y)', 'BegunTokens x y', ('Prepared', 'B.the-row'), 'BegunLasts', 'BegunSaid places (e .1 .1 .0) (e .1 .1 .1 .0) r')
for n in 'bq': c.split('lasts', 'last-' + n, 'lasts', True)
last(c, 'nodes', 'su'); last(c, 'answers', 'sc')
for n in ['κ₀', 'νx', 'νy']: c.split('tk', n, 'tk')
c.nl()
back(c, 'nodes', 'ms', 'refl', '(e .1 .1 .0)', 'su'); back(c, 'answers', 'bs', 'refl', '(e .1 .1 .1 .0)', 'sc'); together(c)
comes_to(c, 'Began', 'prepared = r; nodes-now = e .1 .1 .0; answers-now = e .1 .1 .1 .0; is = is; same-nodes = su; same-answers = sc; said = said', 'Held (b .nodes-now) ls (b .answers-now)', 9)
BEGUN = '\n'.join(c.lines)
c = Ctx(['held'], '        ')
apart(c); copy(c, 'book', 'sb')
lend(c, 'nodes', 'us', 'su'); lend(c, 'answers', 'cs', 'sc'); lend(c, 'list', 'ls', 'refl'); tokens(c, ['κ₀', 'νx', 'νy', 'νz'])
c.nothing('o'); c.owned(NUMBER % ('places', 'gp'), 'f'); c.join('f', 'o', 'o', True); c.nl()
for n in ['sent-list', 'sent-answers', 'sent-nodes']: c.join(n, 'o', 'o', True)
c.owned(struct('B', 'p', 'gP'), 'f'); c.join('f', 'o', 'o', True); c.join('book2', 'o', 'o', True); c.nl()
sends_off(c, ('Out 𝓤 H A mem run', '#out', 'out', '(to-out x y z)'), 'known-out', 'OutTokens x y z', '‵ (OutOwns x y z)', 'says ! asked $')
US, CS, VS = '(e .1 .1 .0)', '(e .1 .1 .1 .0)', '(e .1 .1 .1 .1 .0)'
comes_back(c, 'out', '(out-lifetimes x y z)', '(out-args x y z)', 'OutTokens x y z', ('Standing', 'S.the-row'), 'OutLasts', 'OutSaid places us cs p %s %s %s r' % (US, CS, VS))
for n in 'bp': c.split('lasts', 'last-' + n, 'lasts', True)
last(c, 'nodes', 'ku'); last(c, 'answers', 'kc'); last(c, 'list', 'kv')
for n in ['κ₀', 'νx', 'νy', 'νz']: c.split('tk', n, 'tk')
c.nl()
back(c, 'nodes', 'us', 'su', US, 'ku'); back(c, 'answers', 'cs', 'sc', CS, 'kc'); back(c, 'list', 'ls', 'refl', VS, 'kv'); together(c)
comes_to(c, 'Played', 'standing = r; nodes-now = %s; answers-now = %s; list-now = %s; is = is; same-nodes = ku ∙ su; same-answers = kc ∙ sc; same-list = kv; ended = said' % (US[1:-1], CS[1:-1], VS[1:-1]),
         'Held (b .nodes-now) (b .list-now) (b .answers-now)', 11)
OUT = '\n'.join(c.lines)
# ---- the end: the result is made
LV = ' '.join(loc(i) for i in range(N))
AT = ['held', 'deaths'] + ['_%d' % i for i in range(N)]
def called(vs, back, goes, ops, w, x, asks='asks'):
    c.w('%s ! fm (%s) (%s) (%s) %s (λ %s. await ! tt $ pick ! (λ %s.' % (asks, vs, back, goes, opds(ops), w, x)); c.nl()
def lands(i, typed, kind, same, land='land', how='init'):
    c.w('%s ! (from ! (stop !)) (%s ! %d refl (%s .0)) $' % (land, how, c.at('_%d' % i), typed)); c.nl()
    c.w('rewrite ! %d (λ (u : Val). ‵ (fat fullShare %s %s 0 u)) (ap only %s) refl $' % (c.at('_%d' % i), kind, loc(i), same)); c.nl()
c = Ctx(AT, '          ')
c.nothing(); called('machineS s ∷ vint w64 (p .place) ∷ []', 'MadeBack s (p .place)', 'result-goes s (p .place) gs (parts .1 .1 .0 .1)', [opd_look(c, 9), opd_field(c, 8, 2, 72)], 'w', 'm'); c.w('drop ! $'); c.g.pop(0)
c.w('let same = LL.tells O.the-type O′.the-laws (m .outcome) (w ∷ []) (m .is) in'); c.nl()
lands(0, 'LL.lawful O.the-type O′.the-laws 𝓤 H A W .typed (m .outcome) (w ∷ []) (m .is)', 'O′.mir', 'same')
c.w('returns ! (look ! %d refl) $ releases W _ (full _ l₀ _ ∷ %s ∷ []) $' % (c.at('_0'), ' ∷ '.join('full _ %s _' % loc(i) if i in (8, 9) else 'c' + loc(i)[1:] for i in range(1, N)))); c.nl()
c.w('by ! (exits (m .outcome) us vs cs (subst (Is O.the-row (m .outcome)) same (m .is)) su sv sc (ap (λ (o : Outcome). after o us vs cs) (m .is-result) ∙ said))))'); c.nl()
ENDING = '\n'.join(c.lines)
# ---- the walk
c = Ctx(locals_(N) + ['toks', 'owns'])
c.w(' '.join('alloc1 ! (λ %s.' % loc(i) for i in range(N)) + ' alloc0 ! $ params1 ! $'); c.nl()
def passes(i, wt): c.w('pass1 ! (init ! %d refl %s) $' % (c.at('_%d' % i), wt))
passes(1, sl('gb')); passes(2, sl('gq')); passes(3, sl('gm')); c.nl(); passes(4, sl('gl')); passes(5, sl('ga')); passes(6, '(tt, record { fits = gf })'); c.w('pass0 ! $'); c.nl()
c.use(2, ['toks', 'owns'], 'Held ms ls bs', 'enters', ['held']); c.nothing(); c.nl()
c.keep(*['d%d' % i for i in range(N)], 'true', 'held', *['_%d' % i for i in range(N)]); c.w('group ! %d $' % (N + 1)); c.g[0:N + 1] = ['deaths']; c.move('held'); c.nl()
c.say('how many places are used')
assign(c, 'of-opd ! ' + opd_field(c, 4, 1), 10, '(tt, record { fits = gl .0 })'); c.nl()
c.nothing(); called('vint w64 (length ls) ∷ []', 'CountedBack', 'places-goes', [opd_look(c, 10)], 'w', 'n'); c.w('drop ! $'); c.g.pop(0)
for t in ['let places = n .places in', 'let used = n .used in', 'let gp : places < 2 ^ 64 = n .is .1 in']: c.w(t); c.nl()
lands(7, 'uint-lawful 𝓤 H A W w64 .typed places (w ∷ []) (n .is)', '(ty 7)', '(uint-tells w64 places (w ∷ []) (n .is))')
def take(i, g, p, v):
    assign(c, addr_behind(c, i), p, '(tt, tt)'); c.nl()
    assign(c, slice_of(c, p, i), v, sl(g)); c.nl()
c.say('the nodes and the answers are lent to `begun`')
take(3, 'gm', 11, 12); take(5, 'ga', 13, 14)
called('sb ∷ sq ∷ sm ∷ sa ∷ vint w32 fuel ∷ vint w64 places ∷ []', 'BegunBack places', 'begun-goes places gp (omega (arith, used))', [opd_look(c, i) for i in (1, 2, 12, 14, 6, 7)], 'w′', 'g')
for t in ['let p = g .prepared in', 'let us = g .nodes-now in', 'let cs = g .answers-now in', 'let su = g .same-nodes in', 'let sc = g .same-answers in', 'let said = g .said in',
          'let same′ = LL.tells B.the-type B′.the-laws p (w′ ∷ []) (g .is) in', 'let gP = subst (Is B.the-row p) same′ (g .is) in', 'let parts = LL.owed B.the-type B′.the-laws p (machineB p ∷ []) gP in']:
    c.w(t); c.nl()
lands(8, 'LL.lawful B.the-type B′.the-laws 𝓤 H A W .typed p (w′ ∷ []) (g .is)', 'B′.mir', 'same′')
c.say('the run stands as it was begun')
assign(c, 'of-opd ! ' + opd_field(c, 8, 0), 9, '(LL.lawful S.the-type S′.the-laws 𝓤 H A W .typed (p .standing) (machineS (p .standing) ∷ []) (parts .0) .0)'); c.nl()
assign(c, 'of-opd ! ' + opd_field(c, 8, 1, 64), 15, '(tt, tt)'); c.nl()
c.w('first ! $ branches ! %s' % opd_look(c, 15)); c.nl()
assert c.g == AT, c.g
OTHERS = [i for i in range(1, N) if i not in (8, 9)]
def to_end(bare):
    c.w('exec ! C Λ (En %s) M′.t-11 (atRet (En %s) Post) $' % (LV, LV)); c.nl()
    c.w('ending l₀ l₈ l₉ %s' % ' '.join('(bare _ %s)' % loc(i) if i in bare else '(full _ %s _)' % loc(i) for i in OTHERS)); c.nl()
c.w('(λ is-loaded.'); c.nl()
c.say('loaded: the turns are made, with the nodes, the answers and the list lent again')
for t in ['let loads = said .1 (is-true (p .loaded) is-loaded) in',
          'let going = going-loaded (now book) (now question) fuel places ms bs us cs ls p used (loads .3) (loads .2) gf in',
          'let begins = started (now book) (now question) fuel places ms bs us cs ls p used (loads .3) in',
          'let symbols = few-symbols (now book) (now question) fuel places ms bs us cs ls p used (loads .3) in',
          'let asked : Asked places us cs p = (record { nodes-lent = us; bytes-lent = cs; row-lent = ls; start = p .standing .counts; fuel = fuel; rules = loads .0; question = loads .1; started = begins; going = going }, omega (arith, loads .2, used), symbols) in']:
    c.w(t); c.nl()
take(3, 'gm', 16, 17); take(5, 'ga', 18, 19); take(4, 'gl', 20, 21)
called('sb ∷ machineB p ∷ sm ∷ sa ∷ sl ∷ vint w64 places ∷ []', 'OutBack places p us cs', 'out-goes places p us cs su sc gp gP asked', [opd_look(c, i) for i in (1, 8, 17, 19, 21, 7)], 'w″', 'o', 'asks-last')
for t in ['let s = o .standing in', 'let ended = o .ended in', 'let same = LL.tells S.the-type S′.the-laws s (w″ ∷ []) (o .is) in',
          'let goes = ended .1 .2 us cs ls (p .standing .counts) fuel (loads .0) (loads .1) begins going in',
          'let comes = run-ends (now book) (now question) fuel places ms bs us cs ls p used (loads .3) goes (ended .0) (o .list-now) (ended .1 .1) in']:
    c.w(t); c.nl()
lands(9, 'LL.lawful S.the-type S′.the-laws 𝓤 H A W .typed s (w″ ∷ []) (o .is)', '(ty 9)', 'same', 'land-last', 'store')
to_end([])
c.w('p s (o .nodes-now) (o .list-now) (o .answers-now) gP (subst (Is S.the-row s) same (o .is)) (o .same-nodes) (o .same-list) (o .same-answers)'); c.nl()
c.w('(ap (λ (k : ℕ). after (outcomeAt s k) (o .nodes-now) (o .list-now) (o .answers-now)) (loads .3 .place) ∙ comes))))'); c.nl()
c.w('(λ not-loaded.'); c.nl()
c.say('refused: nothing has changed')
c.w('skips ! $')
to_end(range(16, N))
c.w('p (p .standing) us ls cs gP (parts .0) su refl sc'); c.nl()
c.w('(run-refused (now book) (now question) fuel places ms bs us cs ls p used (said .0 (is-false (p .loaded) not-loaded)))' + ')' * (N + 5)); c.nl()
WALK = '\n'.join(c.lines)
VALS = {8: '(machineB p)', 9: '(machineS s)'}
CELLS = wrap('bare (ty 0) l₀ ∷ ' + ' ∷ '.join('full (ty %d) %s %s' % (i, loc(i), VALS[i]) if i in VALS else 'c' + loc(i)[1:] for i in range(1, N)) + ' ∷ []')
ENV = wrap(' ∷ '.join('(ty %d, %s)' % (i, loc(i)) for i in range(N)) + ' ∷ []')
j = '\n        '
t = open(os.path.join(HERE, 'run.txt')).read()
for k, v in dict(EXITS=EXITS, ENTERS=ENTERS, PLACES=PLACES, RESULT=RESULT, BEGUN=BEGUN, OUT=OUT, ENDING=ENDING, WALK=WALK, LOCTYPES=' → '.join(['ℕ'] * N), LOCS=LV, OTHERS=' '.join('c' + loc(i)[1:] for i in OTHERS), ENV=j.join(ENV), CELLS=j.join(CELLS)).items(): t = t.replace('@%s@' % k, v)
open(os.path.join(HERE, '../../crates/run/proofs/whole/run/Proof.antt'), 'w').write(t)
print(t.count('\n'), 'lines')
