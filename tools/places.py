#!/usr/bin/env python3
"""Counts the places that the pass on design looks at: python3 tools/places.py [-v] [TREE].

Reads crates/*/src of the tree (this folder if none is given). What it counts is a place to look at, no verdict.
"""
import collections
import glob
import itertools
import re
import sys

ITEM = re.compile(r'^[ ]*(?:pub(?:\([a-z]+\))? )?(?:const )?fn ([a-z_0-9]+)', re.M)
CLAUSE = re.compile(r'^\s*(requires|ensures)\*? ?([a-z_0-9]*) ?\{ (.*) \}$', re.M)

# What a single line shows.
LINES = [(kind, re.compile(pattern)) for kind, pattern in [
    ('1 own enums', r'^\s*(pub )?enum '),
    ('1 bool fields and parameters on a line of their own', r'^\s*(pub )?\w+: bool,$'),
    ('3 loops', r'^\s*(for|while|loop)\b'),
    ('3 loops over a range', r'^\s*(for|while|loop)\b.*\bin .*\.\.'),
    ('4 a bit as a number by hand', r'if \w+( == 1)? \{ (1|\w+) \} else \{ 0 \}'),
    ('4 equality, order or conversion by name', r'\bfn (same|equal\w*|cmp\w*|from_\w+|to_\w+|as_\w+|bytes|words|bit_byte|\w+_byte)\('),
    ('4 printing by format!', r'format!\('),
    ('7 pointers, dyn, closures as parameters', r'\bfn\(|dyn |impl Fn|: Fn'),
    ('7 matches', r'\bmatch \(?\w'),
]]


def functions(text):
    """Each function: its line, name, parameters, clauses and body."""
    found = []
    for start in ITEM.finditer(text):
        opening = text.index('(', start.start())
        depth, end = 0, opening
        while True:
            depth += {'(': 1, ')': -1}.get(text[end], 0)
            if depth == 0:
                break
            end += 1
        parameters = split(text[opening + 1:end])
        brace = re.compile(r'(^\s*\{(?:\}|$)|;|\{\s*$| \{ [^\n]* \}$)', re.M)
        rest = end
        head = []
        for line in text[end:].split('\n'):
            rest += len(line) + 1
            if CLAUSE.match(line):
                head.append(line)
            elif re.match(r'^\s*\{', line) or line.rstrip().endswith('{'):
                break
            elif line.rstrip().endswith(';') or line.strip() == '':
                break
        body = []
        indent = len(start.group(0)) - len(start.group(0).lstrip())
        for line in text[rest:].split('\n'):
            if line.startswith(' ' * indent + '}') and len(line.rstrip()) == indent + 1:
                break
            body.append(line)
        clauses = [(m.group(1), m.group(3)) for m in (CLAUSE.match(x) for x in head) if m]
        found.append((text.count('\n', 0, start.start()) + 1, start.group(1), parameters, clauses, '\n'.join(body)))
    return found


def split(text):
    parts, depth, part = [], 0, ''
    for letter in text:
        depth += {'(': 1, '[': 1, '<': 1, ')': -1, ']': -1, '>': -1}.get(letter, 0)
        if letter == ',' and depth == 0:
            parts.append(part)
            part = ''
        else:
            part += letter
    return [p.strip() for p in parts + [part] if p.strip()]


def shape(body):
    """A body with its names in order of appearance and its numbers left out."""
    names = {}
    out = []
    for token in re.findall(r'[A-Za-z_]\w*|0x[0-9a-f_]+|\d[\w]*|\S', re.sub(r'//.*', '', body)):
        if re.match(r'[A-Za-z_]', token):
            out.append(names.setdefault(token, 'n%d' % len(names)))
        elif token[0].isdigit():
            out.append('0')
        else:
            out.append(token)
    return ' '.join(out)


def main():
    arguments = [a for a in sys.argv[1:] if a != '-v']
    tree = arguments[0] if arguments else '.'
    rows = collections.OrderedDict()

    def place(kind, where):
        rows.setdefault(kind, []).append(where)

    shapes, facts, groups = collections.defaultdict(list), collections.defaultdict(set), collections.defaultdict(set)
    for path in sorted(glob.glob(tree + '/crates/*/src/**/*.rt', recursive=True)):
        text = open(path).read()
        short = path[len(tree) + 1:].replace('crates/', '').replace('/src', '')
        for number, line in enumerate(text.split('\n'), 1):
            at = '%s:%d %s' % (short, number, line.strip()[:90])
            for kind, pattern in LINES:
                if pattern.search(line):
                    place(kind, at)
        for number, name, parameters, clauses, body in functions(text):
            at = '%s:%d %s' % (short, number, name)
            if re.fullmatch(r'\s*0\s*', body):
                place('1 functions that answer 0 and mean nothing', at)
            if any(re.match(r'(form|kind): u', p) for p in parameters):
                place('1 numbers for kinds', at)
            if len(re.findall(r'\w+|\S', body)) >= 9 and '#[test]' not in body:
                shapes[shape(body)].append(at)
            for fact in {c for w, c in clauses if w == 'requires'}:
                for part in re.split(r' × ', fact):
                    facts[part.strip('() ')].add(at)
            if len(parameters) > 7:
                place('5 functions of more than seven parameters', '%s (%d)' % (at, len(parameters)))
            plain = [p.split(':')[0].strip() for p in parameters if ':' in p]
            for three in itertools.combinations(plain, 3):
                groups[three].add(at)
            slices = [p for p in parameters if re.search(r'&(\'\w+ )?(mut )?\[', p)]
            places = [p for p in parameters if re.match(r'(w|from|at|count|first|made|end|to): u', p)]
            if slices and places:
                place('6 a slice with a place or a length beside it', '%s (%s)' % (at, ', '.join(places)))
    for places in shapes.values():
        if len(places) > 1:
            place('2 groups of functions of one shape', ' ~ '.join(places))
    for fact, places in sorted(facts.items(), key=lambda x: -len(x[1])):
        if len(places) > 2:
            place('5 facts required by three functions or more', '%d × %s' % (len(places), fact))
    for three, places in sorted(groups.items(), key=lambda x: -len(x[1])):
        if len(places) > 6:
            place('5 threes of parameters in seven functions or more', '%d × %s' % (len(places), ', '.join(three)))
    answers = [open(p).read() for p in glob.glob(tree + '/crates/*/proofs/**/Answers.antt', recursive=True)]
    for kind, places in sorted(rows.items()):
        print('%4d  %s' % (len(places), kind))
        if '-v' in sys.argv:
            for where in places:
                print('        ' + where)
    print('%4d  8 answers, in %d files of %d lines' % (sum(len(re.findall(r'^pub \S+ : goal', a, re.M)) for a in answers), len(answers), sum(a.count('\n') for a in answers)))
    lines = sum(open(p).read().count('\n') for p in glob.glob(tree + '/crates/*/proofs/**/*.antt', recursive=True))
    print('%4d  8 lines of proofs in all' % lines)


main()
