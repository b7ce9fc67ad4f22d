#!/usr/bin/env python3
"""What a reader must believe: every definition that the contracts of the exported calls, of the public calls on references, the
programs' texts and the stated theorems reach, in reading order, as docs/BELIEVED.md.

Fails where that file is stale (--write writes it), where such a definition stands in proofs/ or in specs/Inner, or where the rest of
specs/ holds a declaration that none of them reaches. A variable that is spelled like a declaration counts as it: rather too much is
reached than too little.
Usage: tests/believed.py [--write] [CHECKOUT]
"""
import itertools
import pathlib
import re
import sys

WORD = re.compile(r'[^\s(){}\[\];,"`@λ]+')
USE = re.compile(r'use\s+([^\s{;]+?)(?:\.\{([^}]*)\})?(?:\s+as\s+(\S+))?;?\s*$')
HEAD = re.compile(r'\s*((?:(?:abbrev|unfoldable|pub) )*)(?:(record|data)\s+(\S+)|(\S+)(?: \{[^}]*\})? :(?=\s))')
FUNCTION = re.compile(r'^((?:#\[[^\n]*\]\s*)*)((?:pub(?:\(crate\))? )?(?:extern "C" )?fn (\w+))', re.M)  # attributes; head; name
CLAUSE = re.compile(r'\s*(?:requires|ensures)\b')
NUMBER = r'\d+(?:\.\d+)*'
CITED = re.compile(rf'RFC \d+|sections? {NUMBER}(?:(?:, | and | to ){NUMBER})*|document 0\d(?:, "[^"]+"|, item \d+)?')
HANDS_OUT = 'packet_view', 'packet_frame'  # rooms whose public calls hand out references, which C cannot hold


def filled(text):
    return [(number, line) for number, line in enumerate(text.split('\n'), 1) if line.strip()]


class Scope:
    """The names of a file: declared, brought in one by one (name: file, name there), and files by their name here."""

    def __init__(self):
        self.declared, self.names, self.files = {}, {}, {}

    def use(self, line):
        path, names, alias = USE.search(line).groups()
        if names is None:
            self.files[alias or path.split('.')[-1]] = path
        for there, _, here in (name.strip().partition(' as ') for name in (names or '').split(',')):
            self.names[here or there] = (path, there)


def contract(text, start):
    """A function's signature and clauses: up to its body's brace, which stands alone behind a clause, else at a line's end."""
    lines, clause = [], False
    for line in text[start:].split('\n'):
        clause = clause or bool(CLAUSE.match(line))
        if line == '{':
            break
        lines.append(line)
        if not clause and line.endswith(('{', '{}')):
            break
    return '\n'.join(lines)


class Item:
    """A declaration; or a function's contract."""

    def __init__(self, scope, file, line, name, meant, text):
        self.scope, self.file, self.line, self.name = scope, file, line, name
        self.meant = meant  # whether its body tells its meaning, and not its type alone
        self.type, self.body = text, ''

    def lines(self):
        return len(filled(self.type + self.body))


def statements(lines, around=''):
    """(line number, sections around, text) of each statement, those in `module _ (..) where` too."""
    indents = [len(line) - len(line.lstrip()) for _, line in lines]
    starts = [i for i, indent in enumerate(indents) if indent <= indents[0]]
    for start, end in zip(starts, starts[1:] + [len(lines)]):
        block = [line for _, line in lines[start:end]]
        if block[0].lstrip().startswith('module '):
            head = 1 + next(i for i, line in enumerate(block) if line.rstrip().endswith('where'))
            yield from statements(lines[start + head:end], '\n'.join([around] + block[:head]))
        else:
            yield lines[start][0], around, '\n'.join(block)


class Project:
    def __init__(self, top):
        self.top, self.scopes, self.functions, mains = top, {}, [], ''
        self.archives = re.findall(r'^(\w+) staticlib:', (top / 'crates.txt').read_text(), re.M)
        for path in sorted(top.glob('crates/*/*/**/*')):
            file = str(path.relative_to(top))
            if path.suffix in ('.rt', '.antt') and file.split('/')[2] in ('src', 'specs', 'proofs'):
                mark = '//' if path.suffix == '.rt' else '--'
                text = re.sub(rf'(^|[ \t]){mark}.*$', '', path.read_text('utf-8'), flags=re.M)
                text = re.sub(r'\bRattle\.(?=\w+\.)', '', text)  # a file is room.specs.File
                (self.read_source if mark == '//' else self.read_declarations)(file, text)
                mains += text if path.name == 'main.rt' else ''
        self.declared = {item for scope in self.scopes.values() for item in scope.declared.values()}
        self.printed = set(re.findall(r'\b(\w*text)::(\w+)\(', mains))

    def read_source(self, file, text):
        scope = Scope()
        for line in re.findall(r'^ghost use .*', text, re.M):
            scope.use(line)
        for found in FUNCTION.finditer(text):
            item = Item(scope, file, 0, found[3], False, contract(text, found.start(2)))
            item.exported = 'no_mangle' in found[1] and file.split('/')[1] in self.archives
            self.functions.append(item)

    def read_declarations(self, file, text):
        scope, item = Scope(), None
        self.scopes['.'.join(part for part in file[:-len('.antt')].split('/')[1:] if part != 'Lib')] = scope
        for number, around, block in statements(filled(text)):
            found = HEAD.match(block)
            if re.match(r'(unfoldable |pub )*use ', block):
                scope.use(block)
            elif found and (found[3] or found[4]) not in scope.declared:
                meant = bool(found[2] or re.search('abbrev|unfoldable', found[1]))
                item = Item(scope, file, number, found[3] or found[4], meant, block)
                item.around = around
                constructors = re.findall(r'^\s+(\S+) :', block, re.M) if found[2] == 'data' else []
                scope.declared.update(dict.fromkeys([item.name] + constructors, item))
            elif item and not re.match(r'(pub )?mod |infix', block):
                item.body += '\n' + block

    def roots(self):
        """What is believed rests on these, by what they are."""
        public = [item for item in self.functions if item.file.split('/')[1] in HANDS_OUT and item.type.startswith('pub fn')
                  and 'requires' not in item.type and not item.name.endswith('_run')]
        return {
            'the contracts of the exported calls': [item for item in self.functions if item.exported],
            'the contracts of the public calls on references': public,
            "the programs' texts": [item for item in self.functions if (item.file.split('/')[1], item.name) in self.printed],
            'the stated theorems': [item for item in self.declared if '/specs/Statement' in item.file],
        }

    def named(self, word, scope):
        """The declaration that a word means, or one that it projects from: `book.weights` is of `book`."""
        parts = word.split('.')
        longest = (self.meaning('.'.join(parts[:end]), scope) for end in range(len(parts), 0, -1))
        return next(filter(None, longest), None)

    def meaning(self, word, scope):
        """The declaration that a name means; None for a variable and for a library's name."""
        head, _, tail = word.rpartition('.')
        path, name = scope.names.get(word) or (scope.files.get(head, head), tail)
        return scope.declared.get(word) or (self.meaning(name, self.scopes[path]) if path in self.scopes else None)

    def reached(self, seeds):
        seen, left = set(), list(seeds)
        while left:
            item = left.pop()
            if item and item not in seen:
                seen.add(item)
                text = getattr(item, 'around', '') + '\n' + item.type + item.body * item.meant
                words = {word.rstrip('.') for word in WORD.findall(text) if word[0] != '.'}  # no projections
                left += [self.named(word, item.scope) for word in words | {f'◌{word}◌' for word in words}]
        return seen & self.declared

    # ---- the document

    def cited(self, file, line):
        """What the comment right above a declaration cites, or else its section's heading, or else the file's first comment."""
        lines = (self.top / file).read_text('utf-8').split('\n')
        block = lambda start: list(itertools.takewhile(lambda text: text.lstrip().startswith('--'), lines[start:]))
        above = line - 1
        while lines[above - 1].lstrip().startswith('--'):
            above -= 1
        headings = [i for i in range(line - 1) if lines[i].startswith('-- ----')]
        for start in [above] + headings[-1:] + [0]:
            found = CITED.findall(' '.join(text.lstrip(' -') for text in block(start)))
            if found:
                return ', '.join(dict.fromkeys(found))
        return ''

    def ordered_files(self):
        """The files of specs/: rooms in the order of crates.txt, files as Lib.antt lists them, and behind a file those that it lists."""
        def listed(file, folder):
            for name in re.findall(r'^pub mod (\w+)', file.read_text('utf-8'), re.M) if file.exists() else []:
                inner = folder / f'{name}.antt'
                yield str(inner.relative_to(self.top))
                yield from listed(inner, folder / name)
        for room in re.findall(r'^(\w+)(?: staticlib)?:', (self.top / 'crates.txt').read_text(), re.M):
            specs = self.top / f'crates/{room}/specs'
            yield from ((room, file) for file in listed(specs / 'Lib.antt', specs))

    def document(self):
        roots = self.roots()
        believed = self.reached(item for items in roots.values() for item in items)
        count = lambda items: f'{len(items):,} | {sum(item.lines() for item in items):,}'
        yield '# What is believed'
        yield ''
        yield 'Every definition on which the contracts of the exported calls, of the public calls on references (' + ', '.join(
            f'`{room}`' for room in HANDS_OUT) + '), the'
        yield "programs' texts and the stated theorems rest, in reading order: from the ground up, in a file from its top. Lines are"
        yield 'counted without blank ones and comments. What is cited is the section of RFC 6716 or of the document named, by the'
        yield "definition's own comment, or else by the heading that it stands under, or else by its file's first comment."
        yield '`tests/believed.py --write` writes this page, and the gate fails where it is stale.'
        yield ''
        yield '| Reached from | How many | Definitions | Lines |'
        yield '|---|---|---|---|'
        for title, items in roots.items():
            yield f'| {title} | {len(items)} | {count(self.reached(items))} |'
        yield f'| all of these | {sum(map(len, roots.values()))} | {count(believed)} |'
        last = ''
        for room, file in self.ordered_files():
            items = sorted((item for item in believed if item.file == file), key=lambda item: item.line)
            if items:
                if room != last:
                    yield ''
                    yield f'## {room}'
                last = room
                yield ''
                yield f'`{file}`: {len(items)} definition{"s" * (len(items) > 1)}, {sum(item.lines() for item in items)} lines'
                yield ''
                yield '| Definition | Lines | Cites |'
                yield '|---|---|---|'
                for item in items:
                    yield f'| `{item.name}` | {item.lines()} | {self.cited(file, item.line)} |'

    def misplaced(self):
        believed = self.reached(item for items in self.roots().values() for item in items)
        for item in sorted(self.declared, key=lambda item: (item.file, item.line)):
            kept = '/specs/' in item.file and '/specs/Inner' not in item.file
            if kept != (item in believed) and (kept or item in believed):
                yield f'{item.file}:{item.line}: {item.name} ' + (
                    'is reached by nothing that is believed: it belongs in proofs/ or specs/Inner' if kept else
                    'is believed: it belongs in specs/')


def main():
    words = [word for word in sys.argv[1:] if word != '--write']
    project = Project(pathlib.Path(words[0] if words else pathlib.Path(__file__).parent.parent))
    page, text = project.top / 'docs/BELIEVED.md', '\n'.join(project.document()) + '\n'
    if '--write' in sys.argv:
        page.write_text(text, 'utf-8')
    wrong = list(project.misplaced())
    if not page.exists() or page.read_text('utf-8') != text:
        wrong.append('docs/BELIEVED.md is stale: tests/believed.py --write writes it')
    print(*wrong, sep='\n', end='\n' if wrong else '')
    return 1 if wrong else 0


if __name__ == '__main__':
    sys.exit(main())
