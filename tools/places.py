#!/usr/bin/env python3
# Counts the places of docs/DESIGN-PASS.md, point by point, in src/ (8: in proofs/).
#     python3 tools/places.py [-v] [FOLDER]     -v: names each place
import re, sys
from pathlib import Path

verbose = '-v' in sys.argv
home = Path(next((a for a in sys.argv[1:] if a != '-v'), '.'))
sources = {p: re.sub(r'//.*', '', p.read_text()) for p in sorted(home.glob('crates/*/src/*.rt'))}


def crate(path):
    return path.relative_to(home).parts[1]


def tell(point, what, places):
    print('%s  %4d  %s' % (point, len(places), what))
    if verbose:
        for place in places:
            print('           ' + place)


def items(text):
    lines = text.split('\n')
    for i, line in enumerate(lines):
        m = re.match(r'( *)(?:pub )?(?:const fn|fn|struct|enum) (\w+)', line)
        for j in range(i, len(lines)) if m else ():
            if lines[j] == m[1] + '}' or (j == i and line.endswith(';')):
                yield m[2], '\n'.join(lines[i:j + 1])
                break


def bodies(word):
    for path, text in sources.items():
        for name, body in items(text):
            if re.match(r' *(pub )?(const )?%s ' % word, body):
                yield path, name, body


def lines(pattern):
    return ['%s: %s' % (p.relative_to(home / 'crates'), l.strip()) for p, t in sources.items() for l in t.split('\n') if re.search(pattern, l)]


# 1
own = []
for path, name, body in bodies('enum'):
    variants = re.findall(r'^ +(\w+)(\(\w+\))?,', body, re.M)
    if len(variants) == 2 and any(v[1] for v in variants) and not all(v[1] for v in variants) or any(v[0] == 'Refused' for v in variants):
        own.append('%s/%s' % (crate(path), name))
tell(1, 'enums of the shape of Option or Result', own)
tell(1, 'structs of a verdict and a value', ['%s/%s' % (crate(p), n) for p, n, b in bodies('struct') if 'verdict:' in b])
tell(1, 'functions that match an enum to numbers', ['%s/%s' % (crate(p), n) for p, n, b in bodies('fn') if len(re.findall(r'\w+::\w+(?:\(_\))? => \d+,', b)) > 2])
tell(1, 'constants that pack a code and a value into one number', lines(r'const \w+: \w+ = .*\* *(WHAT|PART|DEED)\b|const \w+: usize = \d_\d;|(?<![\w])\d{1,2}_\d{4}_\d\d\b'))

# 2
def bare(name, body):
    body = re.sub(r'\b%s\b' % re.escape(name), 'SELF', body)
    body = re.sub(r'0x[0-9a-f_]+|b?"[^"]*"', 'N', body)
    body = re.sub(r'\b(u8|u16|u32|u64|usize|i64|f64)', 'T', body)
    return re.sub(r'\s+', ' ', re.sub(r'\d+(_\d+)*', 'N', body))


groups = {}
for word in ('fn', 'struct', 'enum'):
    for path, name, body in bodies(word):
        groups.setdefault(bare(name, body), []).append('%s/%s' % (crate(path), name))
twins = [' '.join(g) for g in groups.values() if len(g) > 1]
tell(2, 'groups of functions or types that differ in a type, a size or a constant alone, of %d places' % sum(len(t.split()) for t in twins), twins)

# 3
tell(3, 'loops by while or loop', lines(r'^ *(while .*|loop) *\{'))

# 4
by_hand = r'\{ *1 *\} else \{ *0 *\}|if (\w+) <= (\w+) \{\s*\1\s*\} else \{\s*\2\s*\}|if \w+ < 1 \{\s*0\s*\} else|if \w+ <= \w+\.len\(\) \{\s*\w+\.len\(\) - \w+\s*\} else \{\s*0\s*\}|if \w+ < \d+ \{\s*0\s*\} else \{'
tell(4, 'functions for min, saturating_sub or From by hand', ['%s/%s' % (crate(p), n) for p, n, b in bodies('fn') if re.search(by_hand, b)])
tell(4, 'casts to a wider number by as', lines(r'\bas (u16|u32|u64|usize|i64)\b'))
tell(4, 'copies of a field to a name of its own', lines(r'^ *let (\w+) = \w+\.\1;'))

# 5
asked = {}
for path, text in sources.items():
    for clause in re.findall(r'requires (?:\w+ )?\{ (.*) \}', text):
        for fact in clause.split(' × '):
            asked.setdefault((crate(path), fact.strip('() ')), []).append(1)
tell(5, 'facts that three or more functions of a crate require', ['%s: %s (%d)' % (c, f, len(n)) for (c, f), n in asked.items() if len(n) > 2])
tell(5, 'functions with six parameters or more', ['%s/%s' % (crate(p), n) for p, n, b in bodies('fn') if len(re.findall(r'\w+: ', b.split('{')[0].split('ensures')[0].split('requires')[0])) > 5])

# 6
tell(6, 'fields that are arrays of a fixed length', lines(r'^ *(pub )?\w+: \[.*; \d+\],'))
tell(6, 'functions over parallel slices', ['%s/%s' % (crate(p), n) for p, n, b in bodies('fn') if len(re.findall(r'\w+: &(?:mut )?\[', b.split('ensures')[0].split('requires')[0])) > 2])

# 7
tell(7, 'switches over numbers', ['%s/%s' % (crate(p), n) for p, n, b in bodies('fn') if len(re.findall(r'^ +\d+ => |\bif \w+ (?:<|==) \d+ \{', b, re.M)) > 3])

# 8
answers = sorted(home.glob('crates/*/proofs/**/Answers.antt'))
lemmas = [p for p in sorted(home.glob('crates/*/proofs/*.antt')) if p.name != 'Lib.antt']
tell(8, 'functions with answers, of %d lines' % sum(len(p.read_text().split('\n')) for p in answers), [str(p.relative_to(home / 'crates')) for p in answers])
tell(8, 'files of lemmas, of %d lines' % sum(len(p.read_text().split('\n')) for p in lemmas), [str(p.relative_to(home / 'crates')) for p in lemmas])
