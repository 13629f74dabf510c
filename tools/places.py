#!/usr/bin/env python3
"""Places in src/ that docs/DESIGN-PASS.md counts. At the top of the checkout:

    tools/places.py functions   a line for each function, tests apart: place, parameters, result, facts required, facts ensured, body
    tools/places.py shapes      functions whose bodies have one shape, whatever their names, numbers and borrows
    tools/places.py repeats     answers of proofs/ that stand in three files or more
"""
import collections, glob, re, sys


def facts(sig, word):
    out = []
    for clause in re.findall(r'^ *%s(?: \w+)? \{(.*?)\}$' % word, sig, re.S | re.M):
        depth, part = 0, ''
        for c in re.sub(r'\.(now|old|new)\b', '', ' '.join(clause.split())) + ' × ':
            depth += (c in '([{') - (c in ')]}')
            if c == '×' and depth == 0:
                out.append(part.strip())
                part = ''
            else:
                part += c
    bare = [p[1:-1] if p[0] == '(' and p[-1] == ')' and '→' not in p and p.find(')') >= p.rfind('(') else p for p in out if p]
    return ' ;; '.join(sorted(set(bare)))


def split(text):
    out, depth = [''], 0
    for c in text.replace('->', '→'):
        depth += (c in '([<') - (c in ')]>')
        if depth < 0:
            break
        if c == ',' and depth == 0:
            out.append('')
        else:
            out[-1] += c
    return [p.strip().replace(': ', ':') for p in out if p.strip()], len(','.join(out))


def functions():
    for path in sorted(glob.glob('crates/*/src/**/*.rt', recursive=True)):
        where = path.split('/')[1] + '/' + path.split('/src/')[1][:-3] + ':'
        lines = open(path).read().split('\n#[cfg(test)]')[0].split('\n')
        owner, i = '', 0
        while i < len(lines):
            found = re.match(r'(?:impl(?:<.*?>)? (?:[^{]* for )?|(?:pub )?trait )(\w+)', lines[i])
            owner = found.group(1) + '::' if found else '' if lines[i] == '}' else owner
            found = re.match(r'( *)(?:pub )?(?:const )?(?:unsafe )?(?:extern "C" )?fn (\w+)', lines[i])
            if found:
                tab, j = found.group(1), i
                while lines[j] != tab + '{' and lines[j][-1:] not in ('', ';') and lines[j][-2:] != '{}' and (lines[j][-2:] != ' {' or 'ensures' in lines[j]):
                    j += 1
                body = lines[j][-1:] == '{'
                end = lines.index(tab + '}', j) if body else j
                sig = '\n'.join(lines[i:j + 1])
                head = ' '.join(re.split(r'\n *(?:requires|ensures) ', sig)[0].split())
                start = re.match(r'.*?fn \w+(?:<.*?>)?\(', head).end()
                params, used = split(head[start:])
                result = re.match(r'[^)]*\)(?: → (.*?))?(?:;| \{| \{\})?$', head.replace('->', '→')[start - head[:start].count('->') + used:])
                code = ' '.join(' '.join(lines[j + 1:end]).split())
                yield [where + owner + found.group(2), ';' + ';'.join(params) + ';', result and result.group(1) or '()', facts(sig, 'requires'), facts(sig, 'ensures'), code]
                i = end
            i += 1


def shapes():
    words, groups = set('if else while for in return let match break true false as'.split()), collections.defaultdict(list)
    for f in functions():
        body = re.sub(r'b"[^"]*"', 'text', re.sub(r'&|\bmut\b|\bself\.', '', f[5]))
        shape = re.sub(r'\w+', lambda w: w[0] if w[0] in words else '0' if w[0][0].isdigit() else 'x', body)
        shape = re.sub(r'x(::x)*', 'x', re.sub(r'x\.x(?!\()', 'x', re.sub(r',(?=[\])}])', '', re.sub(r' ', '', shape))))
        groups[shape].append(f[0])
    for shape, names in groups.items():
        if len(names) > 1 and len(shape) > 4:
            print(len(names), *names)


def repeats():
    texts = collections.defaultdict(list)
    for path in sorted(glob.glob('crates/*/proofs/**/*.antt', recursive=True)):
        if path.split('/')[-1] in ('Answers.antt', 'Invariants.antt'):
            for block in re.split(r'\n\s*\n', re.sub(r'(?m)^(--|use ).*\n', '', open(path).read())):
                found = re.match(r'\s*(?:abbrev )?(?:pub )?(\S+) : .*?\n\1 ?(.*)', block, re.S)
                if found:
                    texts[' '.join(re.sub(r'--.*', '', found.group(2)).split())].append((path, found.group(1)))
    many = [(t, w) for t, w in texts.items() if len({p for p, _ in w}) >= 3]
    for text, where in sorted(many, key=lambda m: (-len(m[1]), m[0])):
        print(len(where), ' '.join(sorted({p.split('/')[1] for p, _ in where})), '|', text[:100])
    print(sum(map(len, texts.values())), 'answers,', len(many), 'texts,', sum(len(w) for _, w in many), 'answers with them')


if sys.argv[1:] == ['functions']:
    for line in functions():
        print(*line, sep='\t')
elif sys.argv[1:] == ['shapes']:
    shapes()
elif sys.argv[1:] == ['repeats']:
    repeats()
else:
    sys.exit(__doc__)
