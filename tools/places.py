#!/usr/bin/env python3
"""places.py: the places of points 1 to 7 in crates/*/src, by the text alone. Run at the top of a checkout; -v lists them."""
import glob, re, sys
from collections import Counter, defaultdict
verbose = '-v' in sys.argv
files = sorted(glob.glob('crates/*/src/**/*.rt', recursive=True))
text = {f: open(f, encoding='utf-8').read() for f in files}
def lines(pattern):
    out = []
    for f in files:
        for i, l in enumerate(text[f].split('\n'), 1):
            if l.lstrip().startswith('//') or l.startswith('ghost use') or l.startswith('use ') or l.startswith('pub use '): continue
            if re.search(pattern, l): out.append(f'{f}:{i}: {l.strip()}')
    return out
def functions():
    """File, name, parameters and the clauses of each function."""
    for f in files:
        for m in re.finditer(r'^( *)(?:pub(?:\(\w+\))? )?(?:extern "C" )?fn (\w+)(?:<[^(]*>)?\(([^)]*)\)(.*?)\n?(?:\n\1| )\{\n', text[f], re.M | re.S):
            yield f, m.group(2), [p.strip() for p in re.sub(r'<[^<>]*>', '', m.group(3)).split(',') if p.strip()], m.group(4)
counts = []
def point(n, what, found):
    counts.append((n, what, len(found)))
    if verbose:
        print(f'--- {n} {what}: {len(found)}')
        for x in found: print('   ', x)
# 1
point(1, 'enums with two variants, one of which is a success or a refusal', lines(r'^\s*(pub )?enum (Pivot|Transition|Field|Step|Head|Rewritten)\b'))
point(1, 'functions that answer with a verdict or a judgement', lines(r'-> (Verdict|Judgement)\b'))
point(1, 'tests of a code or of "accepted"', lines(r'accepted\(|\bcode (==|!=) '))
point(1, 'flags beside a value', lines(r'^\s*(pub )?(failed|exact|packed|mapped): bool'))
point(1, 'a number that stands for none', lines(r'fn (lowest_overflow|struck_at|next_top)\b'))
point(1, 'numbers for kinds', lines(r'fn (kind_number|state_number|run_of)\b|\b(state|form): usize|const (MALFORMED|NEEDLESS_ZERO)'))
# 2
point(2, 'functions named by a width or a layout', [f'{f}: {n}' for f, n, p, r in functions() if re.search(r'(4|8|16)$|(4|8|16)_|_(plain|blocked|packed|rfp)$|_to_(packed|blocked|rfp)', n)])
# 3
point(3, 'while loops', lines(r'^\s*while '))
# 4
point(4, 'own conversions, comparisons and tests', lines(r'fn (kind_number|state_number|verdict_of|wide|low_byte|digit|hex_digit|least|accepted|suits|given_by|float_of|bits_of|code_of|decimal_digits)\b'))
# 5
point(5, 'functions of six parameters or more', [f'{f}: {n} ({len(p)})' for f, n, p, r in functions() if len(p) >= 6])
clauses = defaultdict(list)
for f, n, p, r in functions():
    for m in re.finditer(r'requires(?: \w+)? \{ (.*?) \}\n', r + '\n', re.S):
        clauses[(f.split('/')[1], m.group(1))].append(n)
point(5, 'clauses of a requires that stand in three contracts or more', [f'{c}: {k} ({len(v)})' for (c, k), v in sorted(clauses.items()) if len(v) >= 3])
# 6
point(6, 'a buffer with a position beside it', [f'{f}: {n}' for f, n, p, r in functions() if any(q.startswith('out: &mut') for q in p) and any(q.startswith('at: usize') for q in p)])
point(6, 'arrays on the stack', lines(r'= \[[^\]]*; [^\]]*\];'))
# 7
point(7, 'matches that choose what runs', lines(r'match (to|layout|conversion|b|g|lanes_of\(g\)|run|values|zeros|call|self) \{'))
if not verbose:
    for n, what, k in counts: print(f'{n} | {what} | {k}')
