#!/usr/bin/env python3
"""tools/respell.py [--list]: brings the repository's own names of definitions, lemmas and local values to the spelling
of today's Rattle, everywhere that they stand: words in snake case, with types and facts as they are. Run once, at the
top, after the kit's port.py. Names of functions, fields and exported symbols, strings, inputs and outputs stay.

Where two old names would fall together, or a new one would be a field's, a constant's, a tactic's or an imported one,
the new name is written out in OTHER. --list only says what falls together."""
import collections
import glob
import os
import re
import sys

OTHER = {
    'borrowRank': 'borrow_rank_word',
    'budgetAvailable': 'budget_available_of',
    'budgetNs': 'budget_ns_word',
    'budgetRank': 'budget_rank_word',
    'burstNs': 'burst_ns_word',
    'fairRank': 'fair_rank_word',
    'periodNs': 'period_ns_word',
    'policyWords': 'policy_words_of',
    'preferFair': 'prefer_fair_word',
    'priorityRank': 'priority_rank_word',
    'queueLinks': 'queue_links_read',
    'queue-links': 'queue_links_lem',
    'readyTurn': 'ready_turn_word',
    'shouldSwitch': 'should_switch_of',
    'windowWords': 'window_word_count',
    'in-order': 'in_order_lem',
}
# Lemmas and fields whose names, plain already, are those of definitions now; and a tactic's.
PLAIN = {n: n + '_lem' for n in """at_back at_front end_before found_number goes_on in_list in_order index_number
key_left left_by list_at next_word of_three same_byte same_bytes same_place turned_down""".split()}
PLAIN['first_of'] = 'first_of_list'

WORD = re.compile(r"(?<![\w'\-])[^\W\d_][\w']*(?:-[\w']+)*")
TACTICS = set('''search grind simp rw omega cc hlevel assumption first_of ground elim let where in as open use module
record data ruleset abbrev unfoldable unfolding unfold pub absurd tt syntax fits depth with'''.split())


def files(*patterns):
    return sorted(f for p in patterns for f in glob.glob(p, recursive=True) if '/out/' not in f and os.path.isfile(f))


def camel(word):
    word = re.sub(r'(?<=[a-z0-9])(?=[A-Z])', '_', word)
    return word.lower()


def respelled(word):
    parts = word.split('-')
    out = ''
    for i, p in enumerate(parts):
        kept = p if p[:1].isupper() else camel(p)
        if i:
            types = p[:1].isupper() or parts[i - 1][:1].isupper()
            out += '-' if types else '_'
        out += kept
    return out


def odd(word):
    return respelled(word) != word


def imports(text):
    """The names that a file takes from elsewhere: its own repository's, others'."""
    own, others = set(), set()
    for m in re.finditer(r'use ([\w.·]+?)\.?\{([^}]*)\}', text):
        names = {x.strip().split(' as ')[-1].strip() for x in m.group(2).replace('\n', ' ').split(',')} - {''}
        first = m.group(1).split('.')
        mine = first[0] == 'Rattle' and len(first) > 1 and first[1] in CRATES
        (own if mine else others).update(names)
    return own, others


CRATES = {l.split(':')[0].split()[0] for l in open('crates.txt') if l.strip() and not l.startswith('#')}
GENERATED = re.compile(r'^crates/records/proofs/(Kinds|Reads|Types|Elem|.*/Lts\.antt)')
ANTT = [f for f in files('crates/*/specs/**/*.antt', 'crates/*/proofs/**/*.antt') if not GENERATED.match(f)]
RT = files('crates/*/src/**/*.rt')
EDITS = files('crates/*/must-fail/*.edit', 'crates/*/wrong-answers')
PAGES = files('*.md', 'docs/**/*.md', 'tools/*')
TEXT = {f: open(f).read() for f in ANTT + RT + EDITS + PAGES if f != 'tools/respell.py'}

SIGN = re.compile(r"^\s*(?:(?:abbrev|unfoldable|pub|data|record|ruleset) )*([^\s:(){}λ=]+(?: [^\s:(){}λ=]+)*)"
                  r" (?::|=)(?= |$)", re.M)


def in_answer(f):
    return re.match(r'crates/\w+/proofs/(?!\w+\.antt)', f)


declared = set()
for f in ANTT:
    if in_answer(f):
        continue
    for m in SIGN.finditer(re.sub(r'--.*', '', TEXT[f])):
        declared.update(w for w in m.group(1).split() if re.match(r"[^\W\d_]", w))
for f in RT:
    for m in re.finditer(r'ghost (\w+):', TEXT[f]):
        declared.discard(m.group(1))
fields, functions, params, constants = set(), set(), set(), set()
for f in RT:
    t = re.sub(r'//.*', '', TEXT[f])
    functions.update(re.findall(r'\bfn (\w+)', t))
    constants.update(re.findall(r'\b(?:const|static|type) (\w+)', t))
    for m in re.finditer(r'\bstruct \w+[^;{]*\{([^}]*)\}', t):
        fields.update(re.findall(r'(\w+):', m.group(1)))
    for m in re.finditer(r'\bfn \w+[^(]*\(([^)]*)\)', t):
        params.update(re.findall(r'(\w+):', m.group(1)))
source = fields | functions | params | set(w for f in RT for w in re.findall(r'\b[a-z]\w*', TEXT[f]))

# Each old name that is used, and where.
used = collections.defaultdict(set)
for f in ANTT:
    own, others = imports(TEXT[f])
    text = TEXT[f]
    for m in WORD.finditer(text):
        w = m.group()
        if not w[0].islower() and '-' not in w or not odd(w):
            continue
        if w in others and w not in own:
            continue
        before = text[m.start() - 1:m.start()]
        if before == '.' and w not in declared:
            continue
        if in_answer(f) and w not in own:
            continue
        used[w].add(f)
for f in RT:
    own, others = imports(TEXT[f])
    for w in own:
        if odd(w):
            used[w].add(f)

new = {}
taken = collections.defaultdict(set)
for w in used:
    new[w] = OTHER.get(w) or respelled(w)
    taken[new[w]].add(w)
plain = {w for w in declared if not odd(w)} - set(PLAIN)
trouble = []
for n in sorted(taken):
    olds = taken[n]
    if len(olds) > 1 or n in plain and not olds <= set(OTHER):
        lemmas = [w for w in olds if '-' in w]
        rest = [w for w in olds if '-' not in w]
        if len(rest) + (n in plain) <= 1 and len(lemmas) == 1:
            new[lemmas[0]] = n + '_lem'
            if n + '_lem' in taken or n + '_lem' in plain:
                trouble.append(f'{n}_lem twice')
        else:
            trouble.append(f'{n}: {sorted(olds)} {"and itself" if n in plain else ""}')
for w, n in sorted(new.items()):
    if n in TACTICS:
        trouble.append(f'{w}: {n} is a word of antt')
    if w in declared and w not in OTHER and n in fields | constants:
        trouble.append(f'{w}: {n} is a field or a constant')
    for f in used[w]:
        own, others = imports(TEXT[f])
        if n in others:
            trouble.append(f'{w}: {n} is imported in {f}')
if '--list' in sys.argv:
    print(len(new), 'names')
    print('\n'.join(trouble))
    sys.exit(0)
if trouble:
    sys.exit('\n'.join(trouble))


STRING = re.compile(r'("(?:[^"\\\n]|\\.)*")')


def turn(text, f):
    own, others = imports(TEXT[f])

    def one(m):
        w = m.group()
        if w in others and w not in own:
            return w
        if w in PLAIN and f in ANTT and (not in_answer(f) or w in own):
            return PLAIN[w]
        if f in ANTT:
            after = m.string[m.start() - 1:m.start()] == '.'
            if in_answer(f):
                if w in own and w in new:
                    return new[w]
                if (after or w.endswith('-spec')) and w.replace('-', '_').removesuffix('_spec') in source:
                    return w.replace('-', '_')
                return new[w] if after and w in new and w in declared else w
            if after and new.get(w, '').endswith('_lem') and w not in own:
                return respelled(w)
            return new.get(w, w) if not after or w in declared else w
        return new.get(w, w)

    return ''.join(p if i % 2 else WORD.sub(one, p) for i, p in enumerate(STRING.split(text)))


TICKED = re.compile(r'(`[^`\n]*`)')


def words(text, f):
    """A comment: only what stands between back quotes is a name."""
    return ''.join(turn(p, f) if i % 2 else p for i, p in enumerate(TICKED.split(text)))


def terms(text, f):
    """A file of definitions or of edits, line by line, each without its comment."""
    mark = re.compile(r'(?:^|(?<=\s))--(?=\s|$)' if f in ANTT else r'^#')
    out = []
    for line in text.split('\n'):
        at = mark.search(line)
        cut = at.start() if at else len(line)
        out.append(turn(line[:cut], f) + words(line[cut:], f))
    return '\n'.join(out)


def ghost(text, f):
    """A source file: names in its clauses and its `ghost use` lines, and between back quotes in comments. Code has no
    name in camel case but types', so such a name is a clause's wherever it stands outside strings."""
    out = []
    for line in text.split('\n'):
        if line.lstrip().startswith('//'):
            out.append(re.sub(r'`[^`]*`', lambda m: turn(m.group(), f), line))
        elif re.match(r'\s*(requires\b|ensures\b|ghost\b)', line):
            out.append(turn(line, f))
        else:
            parts = re.split(r'("(?:[^"\\]|\\.)*"|//.*)', line)
            out.append(''.join(
                re.sub(r"(?<![\w'])[a-z]+[\w']*[A-Z][\w']*", lambda m: turn(m.group(), f), p) if i % 2 == 0 else p
                for i, p in enumerate(parts)))
    return '\n'.join(out)


def ticks(text, f):
    """A page: the names between back quotes, and those that no other text has."""
    return re.sub(r'`[^`\n]+`', lambda m: WORD.sub(
        lambda w: new.get(w.group(), w.group()) if w.group() in declared else w.group(), m.group()), text)


for f, text in TEXT.items():
    if f in RT:
        made = ghost(text, f)
    elif f in PAGES:
        made = ticks(text, f)
    else:
        made = terms(text, f)
    if made != text:
        open(f, 'w').write(made)
print(len(new), 'names respelled')
