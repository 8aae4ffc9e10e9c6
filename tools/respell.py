#!/usr/bin/env python3
"""Respells the definitions, lemmas, fields and constructors of specs/ and proofs/: facts and types in upper camel case,
all else in snake case, and a dash only between two names. Run at the top of the repository, once.

    python3 tools/respell.py          writes the files
    python3 tools/respell.py --show   prints old and new names, and names that fall together
"""
import collections
import pathlib
import re
import sys

ROOT = pathlib.Path('.')
MARKS = r'(?:(?:abbrev|unfoldable|pub|record|data|deriving|unfold|mutual) +)*'
HEAD = re.compile(r'^( *)(' + MARKS + r')([^\s(){}\[\],;.:λ]+)((?: +[({][^:=]*:[^=]*?[)}]| +\([^)]*\))*) : (.*)$')
TOKEN = re.compile(r"[^\s(){}\[\],;.:λ⌜⌝\"`]+")
# names that would fall together with a word of the library, or with a field of the code
CHOSEN = {'bit-or': 'bit-bit_or', 'price-month': 'price_month_of'}
WORDS = set('use open module where let in elim record data pub abbrev unfoldable unfolding as rw simp omega grind'.split())


def own_files(kinds):
    for crate in sorted((ROOT / 'crates').iterdir()):
        for kind in kinds:
            for path in sorted((crate / kind).rglob('*')):
                if path.suffix in ('.antt', '.rt', '.edit') and 'out' not in path.parts:
                    yield path


def is_made(path):
    """Answer files: the names that they define at the left are the check's own."""
    return path.name in ('Answers.antt', 'Invariants.antt', 'Choices.antt', 'Proof.antt')


def signatures(path):
    """(indent, marks, name, head, type) of each signature; a type may run over lines."""
    lines = path.read_text().split('\n')
    for i, line in enumerate(lines):
        m = HEAD.match(line)
        if not m or line.lstrip().startswith(('--', 'use ', 'let ', 'λ', '|', '→')):
            continue
        kind = m.group(5)
        for more in lines[i + 1:]:
            if more.startswith(m.group(1) + '    ') and not more.strip().startswith('--') and kind.rstrip().endswith(('→', '=')):
                kind += ' ' + more.strip()
            else:
                break
        yield len(m.group(1)), m.group(2), m.group(3), m.group(4), kind


def is_fact(marks, kind):
    return 'record' in marks or 'data' in marks or re.search(r'(^|→ )Type 0( where)?$', kind.strip()) is not None


def camel(name):
    return ''.join(w[:1].upper() + w[1:] for w in re.split(r'[-_]', name))


def snake(name):
    return name.replace('-', '_')


def own_words(text):
    """The library's words under their own names: its older All is AllByRecursion, and All is another word now."""
    if 'AllByRecursion as All' not in text:
        return text
    text = text.replace('AllByRecursion as All', 'AllByRecursion')
    return re.sub(r'(?<![\w.-])All(?![\w-])', 'AllByRecursion', text)


def main():
    facts, words, lemmas = {}, {}, {}
    for path in own_files(['specs', 'proofs']):
        made = is_made(path)
        for indent, marks, name, head, kind in signatures(path):
            if re.search(r'[◌≡∷+*/<≤]', name) or name in WORDS or name.isdigit():
                continue
            if made and ('goal.' in kind or name.startswith(('invariant-', 'decreases-', 'ghost-'))):
                continue
            if is_fact(marks, kind):
                facts[name] = camel(name)
            elif path.parts[2] == 'specs':
                words[name] = snake(name)
            else:
                lemmas.setdefault(name, path)
    imported = collections.defaultdict(set)
    for path in own_files(['specs', 'proofs', 'src']):
        for m in re.finditer(r'use ((?:Rattle|mathlib|lib|native|borrow|denote|Prim|seplogic)[^\s{;]*)\.\{([^}]*)\}', path.read_text()):
            own = m.group(1).split('.')
            if own[0] == 'Rattle' and (ROOT / 'crates' / own[1]).is_dir():
                continue
            for name in m.group(2).split(','):
                imported[name.strip().split(' as ')[0]].add(m.group(1))
    known = set(imported) | set(facts.values()) | set(words.values())

    def lemma(name):
        """Parts that are names are joined by a dash, plain words by an underscore."""
        parts, out = name.split('-'), []
        while parts:
            for n in range(len(parts), 0, -1):
                whole = '_'.join(parts[:n])
                as_fact = camel(whole) if whole[:1].isupper() else whole
                if as_fact in known:
                    out.append((as_fact, True))
                    break
            else:
                n = 1
                out.append((parts[0], False))
            parts = parts[n:]
        text = out[0][0]
        for (_, before), (word, is_name) in zip(out, out[1:]):
            text += ('-' if before and is_name else '_') + word
        return text

    table = {}
    table.update({n: w for n, w in words.items()})
    table.update({n: lemma(n) for n in lemmas if n not in table})
    table.update(facts)
    table.update({a: b for a, b in CHOSEN.items() if a in table})
    table = {a: b for a, b in table.items() if a != b}
    clash = [a for a in table if a in imported]
    for a in clash:
        print('also imported from elsewhere, left:', a, sorted(imported[a]))
        del table[a]
    back = collections.defaultdict(list)
    every = set(facts) | set(words) | set(lemmas)
    for a in every:
        back[table.get(a, a)].append(a)
    for b, a in back.items():
        if len(a) > 1 or (b in imported and a[0] in table):
            print('fall together:', b, a, sorted(imported.get(b, [])))
    if '--show' in sys.argv:
        for a, b in sorted(table.items()):
            print(a, '=>', b)
        return
    for path in own_files(['specs', 'proofs', 'src', 'must-fail']):
        text = path.read_text()
        new = own_words(TOKEN.sub(lambda m: table.get(m.group(0), m.group(0)), text))
        if new != text:
            path.write_text(new)


main()
