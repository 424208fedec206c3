#!/usr/bin/env python3
"""Lists the places in src/ that docs/DESIGN-PASS.md counts, point by point: candidates by form, which the page then judges one by one.

tools/places.py [FOLDER]       counts and lists, of a checkout (default: this one)
tools/places.py --counts [FOLDER]   the counts alone
"""
import collections
import glob
import os
import re
import sys


def lines(root):
    for path in sorted(glob.glob(os.path.join(root, 'crates/*/src/*.rt'))):
        name = os.path.relpath(path, root)
        in_tests = False
        for number, line in enumerate(open(path, encoding='utf-8'), 1):
            in_tests = in_tests or line.startswith('#[cfg(test)]')
            if not in_tests and not line.lstrip().startswith('//'):
                yield name, number, line.rstrip('\n')


def matching(root, pattern):
    return [(f'{name}:{number}', line.strip()) for name, number, line in lines(root) if re.search(pattern, line)]


def repeated(root, least, key):
    """Lines with one key at least so often, each group once."""
    groups = collections.defaultdict(list)
    for name, number, line in lines(root):
        for k in key(name, line):
            groups[k].append(f'{name}:{number}')
    return [(f'{len(g)} times: {", ".join(g)}', k) for k, g in sorted(groups.items()) if len(g) >= least]


def facts(name, line):
    """The facts of a requires, with what they speak of before and after a call taken as one."""
    m = re.match(r'\s*requires (?:\w+ )?\{ (.*) \}', line)
    crate = name.split('/')[1]
    return [f'{crate}: ' + re.sub(r'\.(old|now)', '', part.strip('() ')) for part in m.group(1).split(' × ')] if m else []


def functions(name, line):
    m = re.match(r'\s*(?:pub )?(?:const )?(?:unsafe )?(?:extern "C" )?fn (\w+)', line)
    return [m.group(1)] if m and m.group(1) not in ('main', 'fmt', 'from', 'try_from') else []


NUMBER = r'\bfn \w*(number|refusal|verdict|fault|phase|exit|type_of|code|status)\w*\b.*-> (u8|u32|usize|bool|\w*Type|Phase|Status|Answer)\b'

POINTS = [
    ('1a', 'enums', lambda r: matching(r, r'^(pub )?enum \w+')),
    ('1b', 'flags in structs and parameters', lambda r: matching(r, r'^    (pub )?\w+: bool,')),
    ('1c', 'numbers of kinds and refusals', lambda r: matching(r, NUMBER)),
    ('2', 'names of functions that stand more than once', lambda r: repeated(r, 2, functions)),
    ('3', 'loops that are no `for`', lambda r: matching(r, r'^\s*(while|loop)\b')),
    ('4', 'conversions, comparisons and printing in functions', lambda r: matching(
        r, r'\bfn (\w*_number|type_of|phase_of|phase_number|as_bit|equal|is_over|is_open|is_refused|is_live|goes_on|is_dash|put_\w+)\b')),
    ('4b', 'calls that put a text together', lambda r: matching(r, r'\bput(_all|_decimal|_hex|_repeated)?\(.*[bt],? ?')),
    ('5', 'facts of a requires that stand three times or more in a crate', lambda r: repeated(r, 3, facts)),
    ('6', 'arrays in structs', lambda r: matching(r, r'^    (pub )?\w+: \[u(8|32|64); \w+\],')),
    ('7', 'functions as values, and matches on a number or name of a step', lambda r: matching(r, r'\bimpl Fn|: Fn(Mut|Once)?\(|match c\[0\]|\bAction::\w+ =>|\bStep::\w+')),
]


def main():
    args = [a for a in sys.argv[1:] if a != '--counts']
    root = args[0] if args else os.path.join(os.path.dirname(os.path.abspath(__file__)), '..')
    for point, what, find in POINTS:
        found = find(root)
        print(f'{point:3} {len(found):4}  {what}')
        if '--counts' not in sys.argv:
            for where, line in found:
                print(f'          {where}: {line[:110]}')


if __name__ == '__main__':
    main()
