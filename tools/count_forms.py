#!/usr/bin/env python3
"""Lists the places of src/ where a form may stand that today's Rattle has a plainer one for, and counts them.

usage: python3 tools/count_forms.py [FOLDER] [--lines]      FOLDER: the top of a checkout; --lines: each place, not only how many

Each point of docs/DESIGN-PASS.md has a pattern, which finds more than is a place: the page says which are.
"""
import itertools
import pathlib
import re
import sys

PATTERNS = {
    '1 enums': r'\benum \w+',
    '1 numbers and flags': r'-> (u8|\((usize|u8), (usize|u32|Held)\)|Result<.*, u8>|io::Result<bool>)',
    '3 loops that count': r'^\s*(while|loop)\b|^\s*for \w+ in [^{]*\.\.',
    '3 counters': r'^\s*(\w+\.)*\w+ \+= (1|\w+\.len\(\));',
    '4 impls': r'^impl.*\b(From|TryFrom|FromStr|PartialEq|Eq|PartialOrd|Ord|Clone|Display)\b.* for ',
    '4 methods': r'fn (equal|equals|below|number|layer|reason|parse_format|is_printable)\(',
    '6 lengths and indices': r'\b(first|len|size|found|count): (usize|u16)|&mut \[usize\]',
    '7 switches and tables': r'match (self\.)?(step|format|kind|operation)\b|: fn\(|dyn |impl Fn|F: Fn',
}


def sources(top):
    for path in sorted(top.glob('crates/*/src/**/*.rt')):
        yield path, path.read_text(encoding='utf8')


def matches(top, pattern):
    for path, text in sources(top):
        for number, line in enumerate(text.split('\n'), 1):
            if re.search(pattern, line):
                yield f'{path.relative_to(top)}:{number}: {line.strip()}'


def functions(text):
    for match in re.finditer(r'\bfn (\w+)(?:<[^(]*>)?\(([^)]*)\)(.*?)(?:\{|;)\n', text, re.S):
        yield match.group(1), match.group(2), match.group(3)


def shared(top, parts):
    """The parts that stand in three or more functions of one crate."""
    places = {}
    for path, text in sources(top):
        crate = path.relative_to(top).parts[1]
        for name, parameters, clauses in functions(text):
            for part in parts(parameters, clauses):
                places.setdefault((crate, part), set()).add(name)
    for (crate, part), names in sorted(places.items()):
        if len(names) >= 3:
            yield f'{crate}: {part}: {", ".join(sorted(names))}'


def required(_parameters, clauses):
    for clause in re.findall(r'requires (?:\w+ )?\{ (.*) \}', clauses):
        for fact in clause.strip('()').split(') × ('):
            yield fact


def pairs(parameters, _clauses):
    names = re.findall(r'(\w+): ', parameters)
    return itertools.combinations(sorted(set(names)), 2)


def main():
    words = [word for word in sys.argv[1:] if word != '--lines']
    top = pathlib.Path(words[0] if words else '.')
    found = {point: list(matches(top, pattern)) for point, pattern in PATTERNS.items()}
    found['5 facts required three times'] = list(shared(top, required))
    found['5 parameters together three times'] = list(shared(top, pairs))
    found['8 answers, files'] = [str(p.relative_to(top)) for p in sorted(top.glob('crates/*/proofs/**/Answers.antt'))]
    answers = [line for p in top.glob('crates/*/proofs/**/Answers.antt') for line in p.read_text(encoding='utf8').splitlines()]
    found['8 answers, lines'] = answers
    for point in sorted(found):
        print(f'{point}: {len(found[point])}')
        if '--lines' in sys.argv and point != '8 answers, lines':
            for line in found[point]:
                print(f'    {line}')


if __name__ == '__main__':
    main()
