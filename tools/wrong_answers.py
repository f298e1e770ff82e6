#!/usr/bin/env python3
"""tools/wrong_answers.py [--list | --check [NAME..] | --shape [NAME..] | --try [NAME..] | --gate [NAME..]],
from the repository's root: the wrong answers that the contracts rule out, and whether each is refused where it is put.

A wrong answer of a function is a line `# fn PATH: the wrong answer in words` of crates/NAME/wrong-answers with the
`file:`, `old:` and `new:` lines below it that put it into the function PATH of the crate. The old text stands once in
that function, or else once in the file. With `# gate fn PATH: ..` the gate tries it each time. A wrong definition or a
wrong promise is an edit of its own, crates/NAME/must-fail/*.edit, which `rt ci` tries and judges, from nothing; its
first line says it in words.

--try puts the answers of the crates, which `rt check` proves first, into copies of them, as many at once as do not
touch each other, and has each copy checked as `rt must-fail` does: over what `rt check` kept of the crate as it stands,
of which what rests on an edit is checked anew. --gate does so with the marked answers of all crates, right after `rt
ci`: over the libraries that this has left built and nothing kept besides, and of the copy it has the edited functions
alone checked (`--only`), where the edits change nothing else.
The check says of each function whether it is proved: the named one must not be, by itself and not only because it calls
another that is not. That it is a fact that fails and not the form of the proof is asked in two ways: what the check
says of the proof must be that a fact was not found; and where a whole proof is written for the function (Proof.antt),
the edited function must leave the same kinds of things to prove in the same order (`--generated DIR --old-names` lists
them), so that the proof still fits it: --shape asks this alone, in some seconds a round. Where none is written, or one
goal by goal (Answers.antt), the check finds the rest by itself, whatever the shape. And no function may be refused by
itself that is not edited and reaches none that is: the copy is the crate, but for the edits. A refused answer is
decided where the prover did not stop at a bound of its own (BOUNDS) before it had tried all that its rules give, or
names values at which the goal is false, or tried every way once --try has written the goal's `search` down; --try names
those that are not, and the public functions with fewer than two that are. What the check said of a round is kept in
target/wrong-answers/NAME.

The last line is 'N wrong answers refused, 0 not', and the exit status is 0 then. --list writes docs/WRONG-ANSWERS.md,
--check asks whether that page is current and has two wrong answers or more for each public function; `--check NAME..`
asks the second alone, of these crates."""
import glob
import importlib.machinery
import importlib.util
import json
import os
import re
import shutil
import subprocess
import sys
import tempfile
import threading
from collections import namedtuple
from concurrent.futures import ThreadPoolExecutor
from contextlib import contextmanager
from functools import lru_cache

PAGE = 'docs/WRONG-ANSWERS.md'
ROOMS = 'target/wrong-answers'
HEAD = """# Wrong answers that the contracts rule out

Written by `python3 tools/wrong_answers.py --list`. Each wrong answer is put into a copy of its crate, and the prover
must refuse it: of a function, that this function is not proved, by itself and not only because it calls another that is
not; of a definition or a promise, that the crate is not proved. The gate tries each time those that say so: of
functions the marked ones of crates/NAME/wrong-answers, of definitions and promises all, crates/NAME/must-fail. The
others are tried by hand, `python3 tools/wrong_answers.py --try NAME`; docs/GUARANTEES.md says what was seen of them.
"""



def tool(name):
    """Another tool of this folder as a module."""
    path = os.path.join(os.path.dirname(os.path.abspath(__file__)), name)
    loader = importlib.machinery.SourceFileLoader(name, path)
    sys.dont_write_bytecode = True
    made = importlib.util.module_from_spec(importlib.util.spec_from_loader(name, loader))
    loader.exec_module(made)
    return made


rattle = tool('rattle')

# Of a definition or a promise there is no function. Changes are a file, the old text and the new one each.
Answer = namedtuple('Answer', 'function words changes by_gate')
# Some wrong answers of one crate that do not touch each other, and the number by which its log goes.
Round = namedtuple('Round', 'crate number answers')
# What came of a round: those not refused, with why, and those refused where the prover met a bound of its own.
Ended = namedtuple('Ended', 'round wrong bounds')


def answers_in(path):
    """The wrong answers of a file."""
    found, place, old = [], None, None
    with open(path) as text:
        lines = text.read().split('\n')
    for line in lines:
        head = re.match(r'# (gate )?fn ([\w:]+): (.*)$', line)
        if head:
            found.append(Answer(head.group(2), head.group(3), [], bool(head.group(1))))
        elif line.startswith('# ') and not found:
            found.append(Answer(None, line[2:], [], True))
        elif line.startswith('file: '):
            place = line[6:]
        elif line.startswith('old: '):
            old = line[5:]
        elif line.startswith('new:'):
            found[-1].changes.append((place, old, line[5:]))
    return found


def edits():
    """The edits that rt tries, of definitions and promises: path, crate, answer."""
    for edit in sorted(glob.glob('crates/*/must-fail/*.edit')):
        for answer in answers_in(edit):
            yield edit, edit.split('/')[1], answer


def answers(crate):
    path = f'crates/{crate}/wrong-answers'
    return answers_in(path) if os.path.exists(path) else []


def uses():
    """The crates of crates.txt, each with the libraries that it uses."""
    return {crate: used for crate, (_, used) in rattle.listed().items()}


# What the check said of a round, and what it means.


def unproved(said):
    """The functions that are not proved by themselves; of one whose proof the check looks for itself, or finds in part
    by answers, it says 'no proof'."""
    return set(re.findall(r'^fn (\S+): (?:not proved$|no proof\b)', said, re.MULTILINE))


# What the check says where a fact is not found: by a search whose goal is a statement and no value, by arithmetic, by
# cases, by rewriting, by congruence, by an equation whose ends are others; or, of a function whose proof it looks for
# by itself, of a goal.
FACTS = re.compile(
    r'`search`: no proof of `(?!\S*(?:\.declared\.|ℕ|List\b|Bool\b))|`omega`: the goal does not follow'
    r'|`rw` has no last argument, so what it leaves must be a path whose two ends are equal|`cc` (?!proves only)'
    r'|`grind`:? found no proof|the two (?:values|types) (?:first differ|differ only) where|the two types are `Path |'
    r'`search` does not close'
    r'|`search` did not prove `'
)
# What it says of a declaration of a proof that rests on another that is refused.
RESTS = re.compile(r'was not admitted \(it has holes|^\d+ declarations? that depends? on ')


def faults(said, crate, function):
    """What the check says of a function's proof, an entry a place, with the lines that belong to it; not that a part of
    it rests on another that is refused."""
    place = re.escape(f'/proofs/{function.replace("::", "/")}/')
    told = re.findall(rf'^\S*{place}\w+\.antt:\d+:\d+: error: (.*(?:\n  .*)*)', said, re.MULTILINE)
    told = [fault for fault in told if not RESTS.search(fault)]
    return told + re.findall(rf'^fn {crate}::{function}: (no proof: .*)', said, re.MULTILINE)


def why_not(said, crate, function):
    """Why a wrong answer does not count as refused; nothing where it does."""
    if not re.search('^(logic=not-proved|only=)', said, re.MULTILINE):
        return said[-300:]
    if f'{crate}::{function}' not in unproved(said):
        return 'NOT REFUSED there'
    told = faults(said, crate, function)
    form = [fault for fault in told if not FACTS.search(fault)]
    return 'refused for the form of its proof: ' + ' '.join(form)[:400] if form or not told else None


# What the check says where a tactic stopped at a bound of its own: congruence at its own, a search at its steps, its
# count or its depth; and where it does not say.
BOUNDS = re.compile(
    r'met a bound of its own|broke off|was spent|Not every way was tried|stopped \d+ lemmas deep'
    r'|`search` did not prove `'
)


def at_bound(said, crate, function):
    """Whether the prover stopped at a bound of its own at each fact that it did not find, so that it never looked at
    everything that its rules give: the answer is refused, but not decided. Of a proof that it looks for by itself it
    does not say so; there a goal is decided where it names values that the known facts allow and the goal does not."""
    before = rf'(?=(?:\nnote: .*)*\nfn {crate}::{function}: no proof)'
    refuted = re.search(f'^note: .* allow values at which this goal is false{before}', said, re.MULTILINE)
    told = faults(said, crate, function)
    return not refuted and bool(told) and all(BOUNDS.search(fault) for fault in told)


# The lists, and the page of them.


def page():
    rows = {}
    for _, crate, answer in edits():
        where = f'definition or promise ({answer.changes[0][0]})'
        rows.setdefault(crate, []).append((where, answer.words, 'gate, must-fail'))
    for crate in uses():
        for answer in answers(crate):
            rows.setdefault(crate, []).append(
                (f'`{answer.function}`', answer.words, 'gate' if answer.by_gate else 'by hand'))
    text = HEAD
    for crate in sorted(rows):
        text += f'\n## {crate}\n\n| where | wrong answer | tried by |\n|---|---|---|\n'
        text += ''.join(f'| {where} | {words} | {label} |\n' for where, words, label in sorted(rows[crate]))
    return text


def public(crate):
    """The public functions of a library, as the check names them: of the root file, of types, exported to C, or shown
    by the root file's `pub use`. In a static library NAME_c beside a library NAME a function that is nothing but the
    call of its name there is left out: the library's answers are its own."""
    root = f'crates/{crate}/src/lib.rt'
    if not os.path.exists(root):
        return []
    with open(root) as text:
        shown = {(module, name.strip()) for module, one, several
                 in re.findall(r'^pub use (\w+)::(?:(\w+)|\{([^}]*)\});', text.read(), re.MULTILINE)
                 for name in (one or several).split(',')}
    library, found = re.sub(r'_c$', '', crate), []
    for path in sorted(glob.glob(f'crates/{crate}/src/*.rt')):
        module, owner = os.path.basename(path)[: -len('.rt')], ''
        with open(path) as text:
            whole = text.read()
        passed = re.findall(rf'^\{{\n +{library}::(\w+)\([\w,\s]*\);?\n\}}', whole, re.MULTILINE)
        for line in whole.split('\n'):
            if line.startswith('impl '):
                owner = line.split()[1] + '::'
            head = re.match(r'( *)pub (extern "C" )?fn (\w+)', line)
            if not head or (library != crate and head.group(3) in passed):
                continue
            if head.group(1) or head.group(2) or module == 'lib' or (module, head.group(3)) in shown:
                within = ('' if module == 'lib' else module + '::') + (owner if head.group(1) else '')
                found.append(within + head.group(3))
    return found


def check(crates, whole):
    """Says what the lists lack, and ends: two wrong answers for each public function; whole, also the page, and that
    rt is given definitions and promises alone, since of a function it does not ask which was refused, and why."""
    every = [(crate, function) for crate in crates for function in public(crate)]
    listed = [(crate, answer.function) for crate in crates for answer in answers(crate)]
    few = [f'{crate}::{function}' for crate, function in every if listed.count((crate, function)) < 2]
    print(f'{len(few)} of {len(every)} public functions have fewer than two wrong answers', *few)
    faulty = []
    if whole:
        faulty = [f'{edit}: {answer.function}: of a function, so its place is crates/{crate}/wrong-answers'
                  for edit, crate, answer in edits() if answer.function]
        with open(PAGE) as text:
            faulty += [] if text.read() == page() else [f'{PAGE} is not current']
        print(*faulty, sep='\n', end='\n' if faulty else '')
    sys.exit(1 if few or faulty else 0)


# Which answers share a round, and how one is put in.

# How a function's text begins, up to its name.
FN = r' *(?:pub(?:\(crate\))? )?(?:extern "C" )?fn '


def calls_within(crate):
    """For each function of a crate, the functions of the crate that it reaches, by their last names."""
    bodies = {}
    for path in glob.glob(f'crates/{crate}/src/*.rt'):
        with open(path) as text:
            found = re.findall(rf'^{FN}(\w+)(.*?)(?=^{FN}|\Z)', text.read(), re.MULTILINE | re.DOTALL)
        for name, body in found:
            bodies[name] = bodies.get(name, '') + body
    reached = {name: {other for other in bodies if re.search(rf'\b{other}\(', body)} for name, body in bodies.items()}
    changed = True
    while changed:
        changed = False
        for name, others in reached.items():
            more = set().union(others, *(reached[other] for other in others))
            if more != others:
                reached[name], changed = more, True
    return reached


def rounds(crate, several):
    """The wrong answers in rounds: in a round no edited function is, or reaches, another edited one."""
    reached, made = calls_within(crate), []
    for answer in several:
        name = answer.function.split('::')[-1]
        for one in made:
            others = [a.function.split('::')[-1] for a in one]
            if all(name != o and o not in reached.get(name, ()) and name not in reached.get(o, ()) for o in others):
                one.append(answer)
                break
        else:
            made.append([answer])
    return [Round(crate, number, one) for number, one in enumerate(made, 1)]


def span(text, function):
    """Where a function's text starts and ends in its file: from its head to the next; of a method, within its type."""
    *owners, name = function.split('::')
    heads = [head.start() for head in re.finditer(f'^{FN}', text, re.MULTILINE)] + [len(text)]
    for start, end in zip(heads, heads[1:]):
        owner = re.findall(r'^impl (\w+)', text[:start], re.MULTILINE)
        method = text[start] == ' '
        if re.match(rf'{FN}{name}\b', text[start:]) and (not method or owner[-1:] == owners[-1:]):
            return start, end
    return 0, len(text)


def within(place, answer):
    """Whether the answer changes its function's body alone, on which no proof of another function rests."""
    for file, old, _ in answer.changes:
        with open(f'{place}/{file}') as text:
            before = text.read()
        start, end = span(before, answer.function)
        body = re.search(r'^ *\{$', before[start:end], re.MULTILINE)
        if end - start == len(before) or not body:
            return False
        if before[start + body.end():end].count(old.replace('\\n', '\n')) != 1:
            return False
    return True


def put_in(place, answer):
    """Puts the answer into the crate at a place; \\n in its lines is the end of a line. Says why where it cannot."""
    for file, old, new in answer.changes:
        old, new = old.replace('\\n', '\n'), new.replace('\\n', '\n')
        with open(f'{place}/{file}') as text:
            before = text.read()
        start, end = span(before, answer.function)
        if before[start:end].count(old) != 1:
            start, end = 0, len(before)
        if before[start:end].count(old) != 1:
            return f'the old text stands {before.count(old)} times in {file}: {old.strip()}'
        with open(f'{place}/{file}', 'w') as out:
            out.write(before[:start] + before[start:end].replace(old, new) + before[end:])
    return None if answer.changes else 'nothing is changed'


# A round is tried in a room, a folder of its own outside the checkout, where rt would refuse sources.


@contextmanager
def room_of(crate):
    with tempfile.TemporaryDirectory(prefix='wrong-answers-') as room:
        for part in ['src', 'specs', 'proofs']:
            if os.path.exists(f'crates/{crate}/{part}'):
                shutil.copytree(f'crates/{crate}/{part}', f'{room}/{part}')
        yield room


def check_in(room, crate, *flags):
    """What the prover says of the crate in the room. It gets no more memory than rt gives it by itself."""
    words = [*rattle.words('check', crate), '--jobs', '1', *flags]
    ran = subprocess.run(words, cwd=room, capture_output=True, text=True, errors='replace', stdin=subprocess.DEVNULL)
    return ran.stdout + ran.stderr


def linked(one, other):
    """Gives a checked module a second name: a check replaces such a file, and writes into none."""
    try:
        if one.endswith('.oantt'):
            return os.link(one, other)
    except OSError:
        pass
    return shutil.copy2(one, other)


def over_kept(room, crate):
    """The flag by which a check begins with what `rt check` kept of the crate as it stands. It takes a module from
    there only while that is up to date: those of an edited function, and what rests on them, are checked anew. So a
    refusal is one of the edited text, by this very run; only a 'proved' would rest on the folder, and none is asked for
    but of what was not edited."""
    shutil.copytree(f'crates/{crate}/out/incremental', f'{room}/kept', copy_function=linked)
    return ['--incremental', f'{room}/kept']


def has_proof(crate, function):
    return os.path.exists(f'crates/{crate}/proofs/{function.replace("::", "/")}/Proof.antt')


def kind_of(name):
    """What kind of thing to prove, or of step, a name stands for: a call's requires, an index, a sum that may not fit,
    a branch, a loop, a return. Which function is called, what is compared and which values go in does not count."""
    kind = 'requires' if '-requires' in name else re.split('[-_]', name or 'none')[0]
    return 'quotient' if kind in ('div', 'rem') else kind


def shapes(room, crate):
    """The things to prove of each function of the room's crate and its steps, in order, by their kinds."""
    with tempfile.TemporaryDirectory() as place:
        check_in(room, crate, '--generated', place, '--old-names')
        if not os.path.exists(f'{place}/names.json'):
            return {}
        with open(f'{place}/names.json') as text:
            named = json.load(text)
    found = {}
    for place, said in named.items():
        function = re.match(rf'Rattle-{crate}-proofs\.(.*)\.Lts$', place)
        if function:
            kinds = [kind_of(old or new) for old, new in said['needs']] + [kind_of(step[0]) for step in said['places']]
            found[f'{crate}::' + function.group(1).replace('.', '::')] = ' '.join(kinds)
    return found


@lru_cache(maxsize=None)
def whole_shapes(crate):
    """The steps of the functions as they stand."""
    with room_of(crate) as room:
        return shapes(room, crate)


def other_steps(room, crate, functions):
    """Of the functions that have a written proof, those whose steps are not as they were, with both."""
    written = [function for function in functions if has_proof(crate, function)]
    if not written:
        return {}
    whole, left, found = whole_shapes(crate), shapes(room, crate), {}
    for function in written:
        before, after = whole.get(f'{crate}::{function}', 'not known'), left.get(f'{crate}::{function}', 'none')
        if before != after:
            found[function] = f'other steps: {before}, now {after}'
    return found


def tried(one, gate, shape_alone):
    """What comes of a round."""
    crate, said = one.crate, ''
    with room_of(crate) as room:
        alone = gate and all(within(room, answer) for answer in one.answers)
        why = {answer.function: put_in(room, answer) for answer in one.answers}
        steps = other_steps(room, crate, why)
        if not shape_alone:
            flags = [] if gate else over_kept(room, crate)
            for function in why if alone else []:
                flags += ['--only', function]
            said = check_in(room, crate, *flags)
            os.makedirs(f'{ROOMS}/{crate}', exist_ok=True)
            with open(f'{ROOMS}/{crate}/{one.number}.txt', 'w') as log:
                log.write(said)
        unsure = [] if gate or shape_alone else [function for function in why if at_bound(said, crate, function)]
        searched = searched_again(room, crate, unsure, said)
    others = [] if alone else harmed(said, crate, why)
    for function in why:
        why[function] = why[function] or steps.get(function)
        if not shape_alone:
            why[function] = why[function] or why_not(said, crate, function)
        if others:
            why[function] = why[function] or f'refused too, and not edited: {" ".join(others)}'
    wrong = [(answer, why[answer.function]) for answer in one.answers if why[answer.function]]
    bounds = [a for a in one.answers if not why[a.function] and a.function in unsure
              and not (faults(searched, crate, a.function) and not at_bound(searched, crate, a.function))]
    return Ended(one, wrong, bounds)


def searched_again(room, crate, functions, said):
    """What the check says of functions whose proof it looks for by itself once the goals that it leaves open are given
    to a `search` in writing, of which it then says whether every way was tried."""
    written = []
    for function in functions:
        file = f'proofs/{function.replace("::", "/")}/Answers.antt'
        lines = re.search(rf'^help: write \./{re.escape(file)} with these lines.*\n((?:    .*\n)+)', said, re.MULTILINE)
        if lines and not os.path.exists(f'{room}/{file}'):
            os.makedirs(os.path.dirname(f'{room}/{file}'), exist_ok=True)
            text = re.sub('^    ', '', lines.group(1), flags=re.MULTILINE)
            with open(f'{room}/{file}', 'w') as out:
                out.write(re.sub(r' = \?$', ' = search rules', text, flags=re.MULTILINE))
            written += ['--only', function]
    return check_in(room, crate, '--incremental', f'{room}/kept', *written) if written else ''


def last_name(function):
    """The last name of a function; of a closure, `..::fn::NAME::..`, that of the function that it stands in."""
    *_, last = function.split('::fn::')
    return last.split('::')[0] if '::fn::' in function else last.split('::')[-1]


def harmed(said, crate, edited):
    """The functions that are refused by themselves though neither they nor what they reach is edited."""
    names, reached = {function.split('::')[-1] for function in edited}, calls_within(crate)
    others = [(function, last_name(function)) for function in sorted(unproved(said))]
    return [function for function, name in others if name not in names and not reached.get(name, set()) & names]


def tell(ended, what):
    crate, number, several = ended.round
    lines = [f'{crate}, round {number}: {len(several) - len(ended.wrong)} of {len(several)} {what}']
    lines += [f'  {answer.function}: {answer.words}: {why}' for answer, why in ended.wrong]
    bound = 'refused, but not decided: the prover met a bound of its own, or names no values at which the goal is false'
    lines += [f'  {answer.function}: {answer.words}: {bound}' for answer in ended.bounds]
    print('\n'.join(lines), flush=True)


def try_rounds(left, gate, shape_alone):
    """What came of each round, as many at a time as there are processors and memory for them."""
    def work(one):
        ended = tried(one, gate, shape_alone)
        if ended.wrong or not gate:
            tell(ended, 'keep the shape' if shape_alone else 'refused')
        return ended

    for crate in {one.crate for one in left}:
        rattle.words('check', crate)
    with ThreadPoolExecutor(workers()) as pool:
        return list(pool.map(work, left))


def workers():
    """A check takes up to three gigabytes."""
    with open('/proc/meminfo') as text:
        free = int(re.search(r'MemAvailable: +(\d+)', text.read()).group(1)) >> 20
    return max(1, min(len(os.sched_getaffinity(0)), free // 3))


def tell_undecided(crates, every):
    decided = []
    for ended in every:
        apart = [answer for answer, _ in ended.wrong] + ended.bounds
        decided += [f'{ended.round.crate}::{answer.function}' for answer in ended.round.answers if answer not in apart]
    functions = [f'{crate}::{function}' for crate in crates for function in public(crate)]
    few = [function for function in functions if decided.count(function) < 2]
    print(f'{sum(len(ended.bounds) for ended in every)} of the refused are not decided; {len(few)} of {len(functions)} '
          'public functions have fewer than two that are decided', *few)


def try_answers(crates, gate, shape_alone):
    left = []
    for crate in crates:
        left += rounds(crate, [answer for answer in answers(crate) if answer.by_gate or not gate])
    every = try_rounds(left, gate, shape_alone)
    if not gate and not shape_alone:
        tell_undecided(crates, every)
    others = sum(len(ended.wrong) for ended in every)
    refused = sum(len(ended.round.answers) for ended in every) - others
    print(f'{refused} wrong answers {"keep the shape" if shape_alone else "refused"}, {others} not')
    sys.exit(1 if others or not refused else 0)


def main():
    word, names = sys.argv[1:2], sys.argv[2:]
    crates = names or [crate for crate in uses() if answers(crate)]
    if word == ['--list']:
        with open(PAGE, 'w') as out:
            out.write(page())
    elif word == ['--check']:
        check(names or list(uses()), not names)
    elif word in (['--try'], ['--shape']):
        for crate in crates:
            proved = subprocess.run(['rt', 'check'], cwd=f'crates/{crate}', capture_output=True, text=True)
            if proved.returncode:
                sys.exit(proved.stdout[-2000:] + proved.stderr)
        try_answers(crates, False, word == ['--shape'])
    elif word == ['--gate']:
        try_answers(crates, True, False)
    else:
        sys.exit(__doc__)


if __name__ == '__main__':
    main()
