#!/usr/bin/env python3
"""Brings the names of our own definitions, lemmas, fields and constructors to snake case, where they had a dash or a capital inside.

Run once, at the top, right after the toolchain's own script (docs/PORT.md): it reads what specs/ and proofs/ declare, and rewrites those
names there, in the clauses and `ghost use` lines of src/, and in must-fail edits. Types keep their capital; functions of src/, exported
names, strings and inputs are not touched. Names of a library that a file brings in keep their spelling in that file.
Prints what falls together: a new name that the same file had already for something else.
Usage: tools/respell.py [CHECKOUT]
"""
import pathlib
import re
import sys

TOKEN = re.compile(r'"(?:[^"\\\n]|\\.)*"|[^\s(){}.;,@"«»\[\]\\`]+')
HEAD = re.compile(r'\s*((?:(?:abbrev|unfoldable|opaque|ruleset|pub) )*)(?:(record|data)\s+(\S+)|([^\s:(){}]+)(?: \{[^}]*\})? :(?=\s))')
USE = re.compile(r'^(?:ghost |unfoldable |pub )*use\s+([^\s{;]+?)\.\{([^}]*)\}', re.M)
WORDS = 'module', 'where', 'let', 'in', 'use', 'mod'


def snake(name):
    """A name of several parts in snake case; a type keeps its capital."""
    parts = name.split('-')
    out = [re.sub(r'(?<=[a-z0-9])([A-Z])', lambda found: '_' + found[1].lower(), part) if not part[:1].isupper() else part for part in parts]
    return '_'.join(out)


def files(top):
    for path in sorted(top.glob('crates/*/**/*')):
        part = path.relative_to(top).parts
        if len(part) > 3 and part[2] in ('src', 'specs', 'proofs', 'must-fail') and path.suffix in ('.rt', '.antt', '.edit'):
            yield path, path.read_text('utf-8')


def code(text):
    return re.sub(r'(^|[ \t])--.*$', '', text, flags=re.M)


def declared(text):
    """Each name that a file declares, and whether its body tells its meaning."""
    for line in code(text).split('\n'):
        found = HEAD.match(line)
        if found and (found[3] or found[4]) not in WORDS:
            yield found[3] or found[4], bool(found[2] or re.search('abbrev|unfoldable', found[1]))


def brought(text, own):
    """The names that a file brings in from a library."""
    for path, names in USE.findall(text):
        parts = path.split('.')
        if not (parts[0] == 'Rattle' and len(parts) > 1 and parts[1] in own):
            for name in names.split(','):
                there, _, here = name.strip().partition(' as ')
                yield there
                if here:
                    yield here


def main():
    top = pathlib.Path(sys.argv[1] if len(sys.argv) > 1 else pathlib.Path(__file__).parent.parent)
    own = {path.name for path in top.glob('crates/*')}
    lemmas, meant, texts = set(), set(), []
    for path, text in files(top):
        if path.suffix == '.antt':
            texts.append(set(TOKEN.findall(text)))
            for name, is_meant in declared(text):
                (meant if is_meant or '/specs/' in str(path) else lemmas).add(name)
    names = {name: snake(name) for name in lemmas | meant if snake(name) != name}
    for name in meant & names.keys():
        # The lemma of a function's name gets an ending.
        for lemma in lemmas - meant:
            if snake(lemma) == names[name] and any({name, lemma} <= text for text in texts):
                names[lemma] = names[name] + '_lem'
    for lemma in lemmas - meant:
        new = snake(lemma)
        if new != lemma and new in meant and any({new, lemma} <= text for text in texts):
            names[lemma] = new + '_lem'
    for path, text in files(top):
        foreign = set(brought(text, own)) - ({name for name, _ in declared(text)} if path.suffix == '.antt' else set())
        before = set(TOKEN.findall(text))
        turned = {}

        def turn(found):
            word = found[0]
            new = names.get(word)
            if new is None or word in foreign:
                return word
            turned[word] = new
            return new

        if path.suffix == '.antt':
            lines = []
            for line in text.split('\n'):
                head, mark, tail = re.match(r'(.*?)((?:^|(?<=\s))--(?=\s|$))(.*)$', line).groups() if re.search(r'(^|\s)--(\s|$)', line) else (line, '', '')
                tail = re.sub(r'`[^`]*`', lambda quoted: TOKEN.sub(turn, quoted[0]), tail)
                lines.append(TOKEN.sub(turn, head) + mark + tail)
            after = '\n'.join(lines)
        elif path.suffix == '.rt':
            lines = []
            for line in text.split('\n'):
                if line.lstrip().startswith('//'):
                    line = re.sub(r'`[^`]*`', lambda quoted: TOKEN.sub(turn, quoted[0]), line)
                else:
                    line = TOKEN.sub(turn, line)
                lines.append(line)
            after = '\n'.join(lines)
        else:
            after = TOKEN.sub(turn, text)
        for word, new in turned.items():
            if new in before:
                print(f'{path.relative_to(top)}: {word} and {new} fall together')
        if after != text:
            path.write_text(after, 'utf-8')


if __name__ == '__main__':
    main()
