#!/usr/bin/env python3
"""Lists the places in src/ (and, for the last point, in proofs/) that docs/DESIGN-PASS.md counts.

    python3 tools/places.py          the number of hits of each row
    python3 tools/places.py ROW      the hits of a row, such as 3a
"""
import collections, glob, re, sys

SOURCES = sorted(glob.glob('crates/*/src/**/*.rt', recursive=True))
PROOFS = sorted(glob.glob('crates/*/proofs/**/*.antt', recursive=True))

ROWS = [
    ('1a', 'a refusal as an Option', SOURCES, r'-> Option<Refusal>'),
    ('1b', 'a refusal handed on by hand', SOURCES,
     r'if let (Some|Err)\(refusal\)|let Ok\(\(\)\) = answer else|(refusal|damage|head)\.is_some\(\)|Err\(refusal\) => return'),
    ('1c', 'an error made or turned by hand', SOURCES,
     r'(Err\(_\)|Err\(error\)|None) => (return )?(Err|Ok|0|false)|Err\(Failure::'),
    ('1d', 'a number or a test for a kind', SOURCES,
     r'^\) -> u8$|number\(\) == |State::(Empty|Open|Sealed) => (true|false|[0-9])|_ => State::'),
    ('1e', 'a flag beside a value, or marks as numbers', SOURCES,
     r'^    (pub )?[a-z]+: bool,$|marks: &(mut )?\[u8\]|^ +marks: Vec<u8>'),
    ('3a', 'a loop over a range, or a while', SOURCES, r'^ *(for _?[a-z]+ in .*\.\.|while )'),
    ('3b', 'a push in a loop', SOURCES, r'\.push\('),
    ('4a', 'a trait for equality, order, copying, conversion or printing, written out', SOURCES,
     r'^impl.*(PartialEq|Eq|Ord|PartialOrd|Clone|Copy|Debug|Default|Hash|From|TryFrom|Display)\b.* for'),
    ('4b', 'a conversion or a printed word as a function', SOURCES,
     r'fn (number|name|letter|sign|is_empty|is_sealed|head_bytes|state_of|number_of|mark_of)\('),
    ('4c', 'a number turned by `as`', SOURCES, r' as (u8|usize)\b'),
    ('5a', 'clauses that say a value is sound', SOURCES, r'(requires|ensures).*\b(SoundBank|SoundFile|SoundReader|Reading\.sound)\b'),
    ('5b', 'clauses on small sizes', SOURCES, r'(requires|ensures).*(\bSmall \b|slot < 8)'),
    ('5c', 'clauses on the lengths of buffers', SOURCES, r'requires.*length [a-z]+\.(old|now)'),
    ('5d', 'slot, node and place as parameters', SOURCES, r'slot: usize, node: usize, place: usize'),
    ('5e', 'a store and its layout as parameters', SOURCES, r'below: &(mut )?S,'),
    ('6', 'a buffer of fixed size', SOURCES,
     r'\[(0|false|true|255|BLANK|State::Empty)(u8)?; ?[0-9A-Z]+\]|: \[[A-Za-z0-9]+; [0-9A-Z]+\]'),
    ('7', 'a match on a kind, a state or words', SOURCES,
     r'match (\*?self|job\.kind|\*kind|words|command::parse|read\(|state|self\.below|job\.ground|\(name|\(at)'),
    ('8', 'an answer in a proof', PROOFS, r'^pub [A-Za-z0-9_.-]+ : goal\.'),
]


def hits(files, pattern):
    for path in files:
        for number, line in enumerate(open(path, encoding='utf-8'), 1):
            if not line.lstrip().startswith('//') and re.search(pattern, line):
                yield path, number, line.rstrip()


def twins():
    """The names of functions that more than one file has, with the files."""
    where = collections.defaultdict(set)
    for path, _, line in hits(SOURCES, r'\bfn [a-z_0-9]+'):
        where[re.search(r'\bfn ([a-z_0-9]+)', line).group(1)].add(path)
    return sorted((name, sorted(files)) for name, files in where.items() if len(files) > 1)


def main():
    wanted = sys.argv[1:]
    for row, text, files, pattern in ROWS:
        found = list(hits(files, pattern))
        if row in wanted:
            for path, number, line in found:
                print(f'{path}:{number}:{line.strip()}')
        if not wanted:
            print(f'{row}\t{len(found)}\t{text}')
    if '2' in wanted:
        for name, files in twins():
            print(name, *files)
    if not wanted:
        print(f'2\t{len(twins())}\tnames of functions that several files have')
        lines = sum(sum(1 for _ in open(path, encoding='utf-8')) for path in PROOFS)
        print(f'\t{lines}\tlines of proofs')
        lines = sum(sum(1 for _ in open(path, encoding='utf-8')) for path in SOURCES)
        print(f'\t{lines}\tlines of sources')


main()
