#!/usr/bin/env python3
"""tools/links.py [--check], from the repository's root: the line numbers of the links in README.md and docs/ that name
a definition, a theorem or a function.

Such a link is [`NAME`](../crates/CRATE/FILE#L12): line 12 of that file is where NAME is defined. Without --check the
numbers are set anew; with it nothing is written, each link that is not true is printed, and the exit status is 0 where
all are. A definition that a rule of docs/SPECIFICATION.md links to says so: the comment above it ends with the rule's
number, (SPECIFICATION 8.2); where it does not, that is printed too."""
import glob
import os
import re
import sys

LINK = re.compile(r'\[`([^`]+)`\]\(((?:\.\./)?crates/[^)#]+)#L(\d*)\)')


def defined_at(name, lines):
    """The line on which a file defines a name: a function, a type, a variant's owner, a definition or a theorem."""
    last = re.escape(name.split('::')[-1].split(' .')[-1])
    forms = [
        rf'(pub )?(extern "C" )?(fn|struct|enum|const|type) {last}\b',
        rf'((abbrev|unfoldable) )*(pub )?(abbrev |unfoldable |data |record |ruleset )*(pub )?'
        rf'«?{last}»? *(\(|:|=|where|\{{|$)',
        rf'«?{last}»? :',
    ]
    owner = name.split('::')[-2] if '::' in name else None
    start = 0
    if owner:
        start = next((n for n, line in enumerate(lines) if re.match(rf'impl {owner}\b', line)), 0)
    for form in forms:
        for n in range(start, len(lines)):
            if re.match(form, lines[n].strip()):
                return n + 1
    return None


def silent_about_rules():
    """The definitions that a rule links to and whose comment does not name it, each with the rule."""
    with open('docs/SPECIFICATION.md') as text:
        paragraphs = text.read().split('\n\n')
    found = []
    for paragraph in paragraphs:
        rule = re.match(r'(\d+\.\d+) ', paragraph)
        for name, path, line in LINK.findall(paragraph) if rule else []:
            with open(os.path.normpath(os.path.join('docs', path))) as source:
                above = source.read().split('\n')[: int(line or 1) - 1]
            while above and above[-1].strip().startswith('#['):
                above.pop()
            named = re.search(r'SPECIFICATION ([\d., ]*)', above[-1]) if above else None
            if not named or rule.group(1) not in re.findall(r'\d+\.\d+', named.group(1)):
                found.append(f'{path}#L{line}: the comment above {name} does not name rule {rule.group(1)}')
    return found


def main():
    check, wrong, count = '--check' in sys.argv[1:], 0, 0
    for page in ['README.md', *sorted(glob.glob('docs/*.md'))]:
        with open(page) as text:
            before = text.read()

        def mended(found):
            nonlocal wrong, count
            name, path, line = found.groups()
            place = os.path.normpath(os.path.join(os.path.dirname(page), path))
            count += 1
            at = None
            if os.path.exists(place):
                with open(place) as source:
                    at = defined_at(name, source.read().split('\n'))
            if at is None or (check and str(at) != line):
                wrong += 1
                print(f'{page}: {name} is not defined at {path}#L{line}' + (f', but at line {at}' if at else ''))
                return found.group(0)
            return f'[`{name}`]({path}#L{at})'

        after = LINK.sub(mended, before)
        if not check and after != before:
            with open(page, 'w') as text:
                text.write(after)
    for silent in silent_about_rules():
        wrong += 1
        print(silent)
    print(f'links: {count} links, {wrong} not true')
    sys.exit(1 if wrong else 0)


main()
