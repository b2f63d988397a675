#!/usr/bin/env python3
"""Brings the repository's own names in specs/, proofs/, clauses and must-fail edits to one spelling:
facts and types in upper camel case, everything else in snake case; a dash is left only between two names
(length-tails). Run once, at the top of the repository, after the kit's own script. It prints each renaming."""
import glob
import re
import sys

# Facts whose plain camel case would fall together with a record of the same file, and facts that had a small first letter.
SET = {
    'Items-numbered': 'ItemsAreNumbered',
    'Entries-placed': 'EntriesArePlaced',
    'asked': 'Asked',
    'left_over': 'LeftOver',
}
# Words of the library that a lemma's name may join by a dash.
LIBRARY = {'length', 'append', 'drop', 'take', 'map', 'get_or', 'set', 'min', 'max', 'sum', 'cond', 'flat_map', '++'}
EDGE = r"[\w\-'·◌+]"


def sources():
    return sorted(glob.glob('crates/*/specs/*.antt') + glob.glob('crates/*/proofs/**/*.antt', recursive=True))


def declared():
    """The dashed names that the files declare: (definitions, lemmas)."""
    defs, lemmas, known = set(), set(), set()
    for path in sources():
        record = False
        for line in open(path):
            if re.match(r'\s*pub (record|data)|^(record|data) ', line):
                record = True
            elif line.strip() and not line.startswith(' '):
                record = False
            m = re.match(r"^(\s*)((?:abbrev |unfoldable )*)(?:pub )?([^\s(){}:=]+)\s+:\s*(.*)$", line)
            if not m or line.lstrip().startswith(('--', 'use ')):
                continue
            indent, kind, name, sig = m.groups()
            if sig.startswith(('goal.', 'G.')) or re.match(r'(invariant|decreases|returns|loop|overflow)-', name):
                continue
            definition = bool(kind) or (record and bool(indent)) or name[0].isupper()
            if kind or name[0].isupper():
                known.add(name)
            if '-' in name:
                (defs if definition else lemmas).add(name)
    return defs, lemmas - defs, known


def camel(name):
    return ''.join(w[0].upper() + w[1:] for w in name.split('-'))


def lemma(name, known):
    """Joins the words by _, but two whole names by a dash."""
    words, parts = name.split('-'), []
    while words:
        for k in range(len(words), 0, -1):
            if k == 1 or '_'.join(words[:k]) in known:
                parts.append('_'.join(words[:k]))
                words = words[k:]
                break
    out = parts[0]
    for a, b in zip(parts, parts[1:]):
        out += ('-' if (a in known and b in known) else '_') + b
    return out


def renamings():
    defs, lemmas, known = declared()
    new = {n: SET.get(n, camel(n) if n[0].isupper() else n.replace('-', '_')) for n in defs}
    known = {new.get(n, n) for n in known} | LIBRARY
    for n in lemmas:
        new[n] = camel(n) if n[0].isupper() else lemma(n, known)
    new.update(SET)
    return {a: b for a, b in new.items() if a != b}


def respell(text, new, comment):
    pattern = re.compile('(?<!' + EDGE + ')(' + '|'.join(re.escape(n) for n in sorted(new, key=len, reverse=True)) + ')(?!' + EDGE + ')')
    out = []
    for line in text.split('\n'):
        at = line.find(comment) if comment else -1
        code, rest = (line, '') if at < 0 else (line[:at], line[at:])
        out.append(pattern.sub(lambda m: new[m.group(1)], code) + rest)
    return '\n'.join(out)


def clauses(text, new):
    """Of a source file, the ghost lines and the clauses alone: their dashed names, and the facts of SET."""
    out = []
    for line in text.split('\n'):
        ghost = re.match(r'\s*(pub )?(ghost|requires|ensures|\}? ?else)?', line).group(0).strip() or '→' in line or '≡' in line or 'λ' in line
        names = new if ghost else {a: b for a, b in new.items() if '-' in a}
        out.append(respell(line, names, '//'))
    return '\n'.join(out)


def main():
    new = renamings()
    texts = {p: open(p).read() for p in sources() + sorted(glob.glob('crates/*/src/*.rt')) + sorted(glob.glob('crates/*/must-fail/*.edit'))}
    words = set()
    for t in texts.values():
        words |= set(re.findall(r"[^\s(){}\[\];,.=:→λ\"]+", t))
    together = {}
    for a, b in new.items():
        together.setdefault(b, []).append(a)
    for b, olds in sorted(together.items()):
        if len(olds) > 1 or b in words:
            print('falls together:', ' '.join(olds), '->', b, file=sys.stderr)
    for path, text in texts.items():
        if path.endswith('.antt'):
            now = respell(text, new, '--')
        else:
            now = clauses(text, new)
        if now != text:
            open(path, 'w').write(now)
    for a, b in sorted(new.items()):
        print(a, '->', b)


if __name__ == '__main__':
    main()
