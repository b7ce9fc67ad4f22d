#!/usr/bin/env python3
"""Each must-fail edit is refused because a fact is false, and not because the proof's text no longer fits. Reads what `edit_logs.py`
kept of every edit (target/edits/ROOM/EDIT.log), takes its first error that is no other's consequence, and prints a line for each: the
edit, the kind of the error and what differs.

  value     two terms differ in a number, a field or an argument
  bound     an inequality or a sum of numbers does not follow
  equation  the two ends of what is left to prove are not equal
  search    a search that ends without a proof of what the function ensures, or of what a call in it requires

Fails on any other kind (a name, a type, another relation, a place that a rewriting no longer finds), on an edit without a log, on an
edit that docs/PROMISES.md does not name, on a name there that is no edit, room, function or law, and where docs/EDITS.md is stale in its
edits and kinds (--write writes it).
Usage: tests/edit_errors.py [--write] [CHECKOUT]
"""
import itertools
import pathlib
import re
import sys

GOOD = 'value', 'bound', 'equation', 'search'
# What another relation, test or type in a term's place is called.
SHAPES = {'◌≡◌', '◌≤◌', '◌<◌', '◌==◌', 'Path', 'compare_is_eq', 'is_eq', 'is_le', 'is_lt', 'eqb', 'leb', 'ltb', 'nat_eq', 'nat_le',
          'nat_lt', 'eq_z', 'le_z', 'lt_z', 'int_le', 'int_lt', 'ℕ', 'ℤ', 'Bool', 'List'}
DECLARED = re.compile(r'^\s*(?:(?:abbrev|unfoldable|pub) )*(\w+)(?: \{[^}]*\})? :(?=\s)', re.M)
BROKEN = re.compile(r'no occurrence of|has no field|that can be named from here|not in scope|is applied to an argument|a dimension')
GONE = re.compile(r'has no field `|has no `[^`]*` that can be named')
FOLLOWS = re.compile(r'\d+ declarations? that depends? on')
ASKED = re.compile(r'`search`: no proof of `\S+\.Reads\.Asked ')
OPEN = re.compile(r'it is not proved that (.*?)(?: \(|$)', re.M)
SIDES = r'where one has `(?P<{0}>[^`]*)`\s*\((?:expected|left)\).*?the other has `(?P<{1}>[^`]*)`\s*\((?:found|right)\)'
COMPUTED = re.compile(r'computed as far as they go, the two (?:types|sides) (?:(?:differ only|first differ) ' + SIDES.format('a', 'b') +
                      r'|are `(?P<c>[^`]*)`\s*\(expected\) and `(?P<d>[^`]*)`\s*\(found\))', re.S)
STATED = re.compile(r'expected type `(?P<a>[^`]*)`,?\s+but this has type `(?P<b>[^`]*)`', re.S)
HELD = re.compile(r'`(?P<a>[^`]*)`\s+≟ `(?P<b>[^`]*)`\s+does not hold')
PRINTED = re.compile(r'as printed, the two (?:types|sides) (?:differ only|first differ) ' + SIDES.format('a', 'b'), re.S)


def first_error(log):
    """The first error that is no other's consequence with the lines that belong to it, or else the first part that was left open. A goal
    bears the name of what the code does there: a name that the edit took away comes last, where nothing else was refused."""
    blocks = re.split(r'\n(?!  )', log)
    first = lambda block: block.split('\n')[0]
    errors = [block for block in blocks if ': error: ' in first(block) and not FOLLOWS.search(first(block))]
    named = [block for block in errors if GONE.search(first(block))]
    notes = [block for block in blocks if first(block).startswith('note: ') and OPEN.search(first(block))]
    return next(itertools.chain((block for block in errors if block not in named), named, notes), '')


def words(term):
    return re.findall(r'[()]|[^\s()]+', term)


def bare(word):
    """A word without the path of its module, and a projection without where its variable stands."""
    parts = [part for part in word.split('.') if part]
    start = max((i + 1 for i, part in enumerate(parts) if part[0].isupper()), default=0)
    named = [part for part in parts[start:] if part not in ('c', 'before', 'args')]
    return '.'.join(named) or (parts or [word])[-1]


def short(term):
    """A term without where its variables stand and without modules, cut."""
    text = ' '.join(map(bare, words(term)))
    text = re.sub(r'\( ', '(', re.sub(r' \)', ')', text))
    return text if len(text) <= 40 else text[:38].rsplit(' ', 1)[0] + ' …'


def head(term):
    """What a type says: its relation, or else its first word."""
    depth = 0
    for word in words(term):
        depth += (word == '(') - (word == ')')
        if depth == 0 and word in ('≡', '≤', '<'):
            return word
    first = bare((words(term) or [''])[0])
    return {'Path': '≡', '◌≡◌': '≡', '◌≤◌': '≤', '◌<◌': '<', 'Post': '≡'}.get(first, first)


def differing(one, other):
    """Two terms from where they differ on."""
    pairs = list(zip(words(one), words(other)))
    same = next((i for i, (a, b) in enumerate(pairs) if a != b), len(pairs))
    return tuple(' '.join(words(term)[same:same + 6]) for term in (one, other))


def sides(error):
    """The two terms that differ, as the compiler computed or printed them, or nothing; a third part where it is the types that do."""
    computed, stated, printed = COMPUTED.search(error), STATED.search(error), PRINTED.search(error)
    if computed and computed['a'] is not None:
        return computed['a'], computed['b']
    whole = computed and (computed['c'], computed['d']) or stated and (stated['a'], stated['b'])
    if not whole:
        held = printed or HELD.search(error)
        return held and (held['a'], held['b'])
    if head(whole[0]) != head(whole[1]):
        return head(whole[0]), head(whole[1]), 'types'
    if words(whole[0])[0] != words(whole[1])[0]:  # one relation, written in two ways
        return 'one end', 'the other'
    return differing(*whole)


def numbers(error):
    """Where `omega` says that the fact fails: the numbers of its variables, by their last words."""
    places = re.findall(r'`([^`]*)`\s*= (\d+)', error.partition('fails, at')[2])
    named = [f'{bare(term)} = {n}' for term, n in places if re.fullmatch(r"[a-z][\w.'-]*", term)]
    return 'fails at ' + ', '.join(dict.fromkeys(named[:2])) if named else 'does not follow'


def kind(error):
    """What an error says, in a word, and what differs."""
    broken, left = BROKEN.search(error.split('expected type')[0]), OPEN.search(error)
    if broken:
        return 'shape', broken[0]
    if '`omega`' in error.split('\n')[0] and 'does not follow' in error:
        return 'bound', numbers(error)
    if '`grind` found no proof' in error.split('\n')[0] and 'the goal fails at' in error:
        return 'bound', 'does not follow'
    if left and 'ensures' not in left[1]:
        return 'bound', left[1]
    if left or '`search`: no proof of' in error:
        return 'search', 'what a call requires' if ASKED.search(error) else 'what the function ensures'
    if 'must be a path whose two ends are equal' in error or '`cc` met a bound' in error:
        return 'equation', 'what is left of the contract'
    found = sides(error)
    if not found:
        return 'unknown', error[-60:]
    first = {bare(word) for side in found[:2] for word in words(side)[:1]}
    return 'shape' if SHAPES & first or len(found) > 2 else 'value', ' | '.join(map(short, found[:2]))


class Edits:
    """The edits of a checkout, with what the logs say of each."""

    def __init__(self, top):
        self.top, self.found = top, []
        for path in sorted(top.glob('crates/*/must-fail/*.edit')):
            room, edit = path.parts[-3], path.stem
            log = top / 'target/edits' / room / f'{edit}.log'
            files = dict.fromkeys(re.findall(r'^file: (.*)', path.read_text('utf-8'), re.M))
            said = kind(first_error(log.read_text('utf-8', 'replace'))) if log.exists() else ('no log', '')
            self.found.append((room, edit, ', '.join(files), *said))

    def lines(self):
        return [f'{room}/{edit}: {what}' + (f', {differs}' if differs else '') for room, edit, _, what, differs in self.found]

    def unnamed(self):
        """Edits that docs/PROMISES.md does not name, and names there that are nothing."""
        named = set(re.findall(r'`(\w+)`', (self.top / 'docs/PROMISES.md').read_text('utf-8')))
        edits = {edit for _, edit, *_ in self.found}
        rooms = {path.name for path in self.top.glob('crates/*')}
        sources = [path.read_text('utf-8') for path in self.top.glob('crates/*/src/**/*.rt')]
        functions = {name for text in sources for name in re.findall(r'\bfn (\w+)', text)}
        texts = [path.read_text('utf-8') for part in ('specs', 'proofs') for path in self.top.glob(f'crates/*/{part}/**/*.antt')]
        laws = {name for text in texts for name in DECLARED.findall(text)}
        for room, edit, *_ in self.found:
            if edit not in named:
                yield f'docs/PROMISES.md does not name {room}/{edit}'
        for name in sorted(named - edits - rooms - functions - laws):
            if '_' in name:
                yield f'docs/PROMISES.md names {name}, which is no edit, room, function or law'

    def document(self):
        yield '# Must-fail edits'
        yield ''
        yield 'Every wrong line of code or of a definition that the gate tries, and the first error that refuses it: its kind and what'
        yield 'differs (`tests/edit_errors.py` says what each kind is; the terms are cut). docs/PROMISES.md has them by the call that they'
        yield 'speak of. The gate fails where an edit is refused for another kind of reason, or where this page is stale in edits or'
        yield 'kinds; `tests/edit_errors.py --write` writes it after `tests/edit_logs.py`.'
        last = ''
        for room, edit, files, what, differs in self.found:
            if room != last:
                yield from ('', f'## {room}', '', '| Edit | File | Kind | What differs |', '|---|---|---|---|')
            last = room
            yield f'| `{edit}` | {files} | {what} | {differs.replace("|", "/")} |'

    def stale(self):
        """Whether the page lists other edits or kinds; what differs is not compared, since terms are printed as the compiler likes."""
        rows = lambda text: [line.rsplit('|', 2)[0] for line in text.split('\n') if line.startswith(('| `', '## '))]
        page = self.top / 'docs/EDITS.md'
        return not page.exists() or rows(page.read_text('utf-8')) != rows('\n'.join(self.document()))


def main():
    arguments = [word for word in sys.argv[1:] if word != '--write']
    edits = Edits(pathlib.Path(arguments[0] if arguments else pathlib.Path(__file__).parent.parent))
    if '--write' in sys.argv:
        (edits.top / 'docs/EDITS.md').write_text('\n'.join(edits.document()) + '\n', 'utf-8')
    wrong = [f'{room}/{edit}: refused by {what}, which speaks of no fact' for room, edit, _, what, _ in edits.found if what not in GOOD]
    wrong += edits.unnamed()
    if edits.stale():
        wrong.append('docs/EDITS.md is stale: tests/edit_errors.py --write writes it')
    print(*edits.lines(), *wrong, sep='\n')
    return 1 if wrong else 0


if __name__ == '__main__':
    sys.exit(main())
