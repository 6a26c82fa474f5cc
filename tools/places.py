#!/usr/bin/env python3
"""places.py [POINT..]: lists the places in crates/*/src that docs/DESIGN-PASS.md counts, by its points 1 to 8.

With no point it prints how many each has. Run it at the top of the repository, in a checkout of any commit.
"""
import collections
import glob
import re
import sys

WORDS = {
    'as', 'bool', 'break', 'const', 'continue', 'crate', 'else', 'enum', 'extern', 'false', 'fn', 'for', 'if', 'impl',
    'in', 'let', 'loop', 'match', 'mod', 'mut', 'pub', 'return', 'self', 'Self', 'struct', 'true', 'type', 'use',
    'while',
}
SHAPE = re.compile(r'^(Done|Lawful|Is|Words|Refused|Unknown|Bad|Nothing)$')


def sources():
    """Every file of every crate's src/, with its text; the clauses and comments stay."""
    return [(path, open(path).read()) for path in sorted(glob.glob('crates/*/src/**/*.rt', recursive=True))]


def functions():
    """(path, name, parameters, clauses, body) of each function with a body."""
    for path, text in sources():
        for found in re.finditer(r'\bfn (\w+)(?:<[^(]*>)?\(', text):
            depth, at = 1, found.end()
            while depth and at < len(text):
                depth += {'(': 1, ')': -1}.get(text[at], 0)
                at += 1
            parameters = text[found.end():at - 1]
            start = text.find('\n{', at - 1)
            inline = text.find(' {', at - 1)
            line_end = text.find('\n', at - 1)
            if 0 <= inline < line_end and not text[at:inline].strip().startswith('requires'):
                start = inline
            brace = text.find('{', start)
            if 'requires' in text[at:brace] or 'ensures' in text[at:brace]:
                brace = body_brace(text, at)
            end = closing(text, brace)
            yield path, found.group(1), parameters, text[at:brace], text[brace + 1:end]


def closing(text, brace):
    depth, at = 0, brace
    while at < len(text):
        depth += {'{': 1, '}': -1}.get(text[at], 0)
        if depth == 0:
            return at
        at += 1
    return at


def body_brace(text, at):
    """The brace that opens a body behind clauses: the first one that no clause's word stands before."""
    while True:
        clause = re.compile(r'\s*(?:->[^\n{]*)?\s*(requires|ensures)[^{]*').match(text, at)
        brace = text.find('{', at)
        if not clause:
            return brace
        at = closing(text, brace) + 1


def fields(path_text, kind):
    for path, text in path_text:
        for found in re.finditer(kind + r' (\w+)(?:<[^{]*>)? \{', text):
            yield path, found.group(1), text[found.end():closing(text, found.end() - 1)]


def point_1():
    for path, name, body in fields(sources(), r'pub enum'):
        variants = re.findall(r'^ {4}(\w+)', body, re.M)
        if any(SHAPE.match(variant) for variant in variants):
            yield f'{path}: enum {name} has the shape of Option or Result'
    for path, name, body in fields(sources(), r'pub struct'):
        for flag in re.findall(r'pub (fine|waits|used|round): bool', body):
            yield f'{path}: struct {name} has the flag {flag} beside a value'


def shape(parameters, body):
    """A body's tokens with its names numbered in their order, and types, numbers and constants alike."""
    text = re.sub(r'//[^\n]*', '', parameters + ' | ' + body)
    seen, shaped = {}, []
    for token in re.findall(r"b?'[^']+'|b?\"[^\"]*\"|\w+|[^\s\w]", text):
        if re.fullmatch(r'[ui](8|16|32|64|size)', token):
            token = 'TYPE'
        elif re.fullmatch(r'\d\w*', token) or re.fullmatch(r'[A-Z][A-Z_0-9]+', token) or token[0] in '"\'' or token[:2] in ("b'", 'b"'):
            token = 'CONSTANT'
        elif token not in WORDS and re.fullmatch(r'\w+', token):
            token = 'name' + str(seen.setdefault(token, len(seen)))
        shaped.append(token)
    return tuple(shaped)


def point_2():
    alike = collections.defaultdict(list)
    for path, name, parameters, _, body in functions():
        tokens = shape(parameters, body)
        if len(tokens) > 24:
            alike[tokens].append(f'{path}: fn {name}')
    for places in alike.values():
        if len(places) > 1:
            yield ' = '.join(places)
    same = collections.defaultdict(list)
    for path, name, body in fields(sources(), r'pub struct'):
        names = tuple(sorted(re.findall(r'pub (\w+):', body)))
        if len(names) > 1:
            same[names].append(f'{path}: struct {name}')
    for places in same.values():
        if len(places) > 1:
            yield ' = '.join(places)
    for path, text in sources():
        for name, value in re.findall(r'const (\w+): \w+ = (\w+) as \w+;', text):
            yield f'{path}: const {name} is {value} in another type'


def point_3():
    for path, text in sources():
        for number, line in enumerate(text.split('\n'), 1):
            if re.match(r'\s*while ', line):
                yield f'{path}:{number}:{line}'


def point_4():
    for path, name, _, _, body in functions():
        if len(re.findall(r'=> (?:true|false),', body)) > 1:
            yield f'{path}: fn {name} compares by hand'
        if re.fullmatch(r'\s*\w+ as \w+\s*', body):
            yield f'{path}: fn {name} converts by hand'
        if re.search(r"b'0' \+|b'A' \+|b'#'", body):
            yield f'{path}: fn {name} prints by hand'
        if len(re.findall(r'=> \d+,', body)) > 1:
            yield f'{path}: fn {name} converts a kind by hand'


def parted(clause):
    """The facts of a clause: what stands between × at its top."""
    depth, fact, facts = 0, '', []
    for sign in clause:
        depth += {'(': 1, ')': -1}.get(sign, 0)
        if sign == '×' and depth == 0:
            facts.append(fact)
            fact = ''
        else:
            fact += sign
    facts.append(fact)
    return [' '.join(each.strip().strip('()').split()) for each in facts]


def point_5():
    stand = collections.defaultdict(set)
    together = collections.defaultdict(set)
    for path, name, parameters, clauses, _ in functions():
        for clause in re.findall(r'requires[^{]*\{((?:[^{}]|\{[^}]*\})*)\}', clauses):
            for fact in parted(clause):
                stand[fact].add(f'{path}:{name}')
        plain = [' '.join(each.split()) for each in re.sub(r'\s+', ' ', parameters).split(', ') if ':' in each]
        for first in range(len(plain)):
            for last in range(first + 3, len(plain) + 1):
                together[', '.join(plain[first:last]).rstrip(',')].add(f'{path}:{name}')
    for fact, places in sorted(stand.items()):
        if len(places) > 2:
            yield f'{len(places)} contracts require {fact}'
    kept = {group: places for group, places in together.items() if len(places) > 2}
    for group, places in sorted(kept.items()):
        if not any(group in other and group != other and kept[other] >= places for other in kept):
            yield f'{len(places)} functions take {group}'


def point_6():
    for path, name, parameters, _, _ in functions():
        plain = ' '.join(parameters.split())
        if re.search(r'(\w+): &(?:mut )?(?:\[\w+\]|Words|Numbers), (at|from|written|long|many|n|words|count): (usize|u32)', plain):
            yield f'{path}: fn {name} takes a run with a place or a count beside it'
        if re.search(r'places: &(?:mut )?\[\w+\], values: ', plain):
            yield f'{path}: fn {name} takes parallel arrays'


def point_7():
    for path, name, _, _, body in functions():
        calls = re.findall(r'=> (?:crate::)?[\w:]+\([^)]*\),', body)
        if len(calls) > 2:
            yield f'{path}: fn {name} switches between {len(calls)} calls'


def point_8():
    for name in ('Invariants', 'Answers', 'Proof'):
        files = glob.glob(f'crates/*/proofs/**/{name}.antt', recursive=True)
        lines = sum(open(path).read().count('\n') for path in files)
        yield f'{len(files)} files {name}.antt, {lines} lines'
    laws = [path for path in glob.glob('crates/*/proofs/*.antt') if not path.endswith('Lib.antt')]
    yield f'{len(laws)} files of lemmas, {sum(open(path).read().count(chr(10)) for path in laws)} lines'


def main():
    points = [point_1, point_2, point_3, point_4, point_5, point_6, point_7, point_8]
    asked = [int(each) for each in sys.argv[1:]]
    for number, point in enumerate(points, 1):
        found = list(point())
        if not asked:
            print(f'{number}: {len(found)}')
        elif number in asked:
            print('\n'.join(found))


main()
