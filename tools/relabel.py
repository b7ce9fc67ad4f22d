#!/usr/bin/env python3
"""Gives the goals, steps and places in a room's proofs the names that today's toolchain has for them.

NAMES is the names.json that `rt names` writes for the room: it lists each name of a function's proof beside the older one. A proof by
hand lists its answers in the order of the goals, so a goal's name follows from its place in that list. Run once for a room, right after
tools/respell.py. Prints what it leaves.
Usage: tools/relabel.py NAMES ROOM
"""
import json
import pathlib
import re
import sys

FIELDS = {'ensures', 'result', 'true', 'false', 'invariant', 'given', 'after', 'new', 'is', 'branch', 'auto', 'was', 'fits', 'match', 'requires', 'type-inv', 'type_inv'}


def plain(name):
    """A name without what scripts made of its spelling."""
    return name.replace('-', '_').lower().removesuffix('_lem')


def parameters(room):
    """The parameters of each function: a struct's place in the list was its older name."""
    found = {}
    for source in sorted(room.glob('src/**/*.rt')):
        for name, given in re.findall(r'\bfn (\w+)(?:<[^>]*>)?\(([^)]*)\)', source.read_text('utf-8')):
            words = [part.split(':')[0].split()[-1] for part in given.split(',') if part.strip()]
            found[name] = dict(enumerate(words, 1))
    return found


class Names:
    """Older names to today's, of one function."""

    def __init__(self, of, given):
        self.parameters = given
        self.goals = [(plain(old), new) for old, new in of['needs']]
        self.loops = {plain(old): (new, names) for (old, new), names in of['loops']}
        self.places, self.steps = {}, {}
        for (old, _, (step, new), *_), place in zip(of['places'], of['places_by_name']):
            self.places[old.replace('-', '_')] = place
            if step:
                self.steps.setdefault(plain(step), new)


def arguments(text):
    """What `tie.spec` is given, in order."""
    start = text.find('tie.spec')
    if start < 0:
        return None
    found, depth = [''], 0
    for sign in text[start + len('tie.spec'):]:
        depth += (sign == '(') - (sign == ')')
        if depth < 0:
            break
        if depth == 0 and sign.isspace():
            found.append('')
        else:
            found[-1] += sign
    return [it for it in found if it]


def fitting(given, goals, asked):
    """Which of the answers are for the goals, in order: today some goals, that a search found, are no goals any more. None if none fit."""
    def fits(answer, goal):
        if answer in asked:
            return asked[answer] in (goal[0], re.sub('^(overflow|nonzero)_', '', goal[0]))
        return ('κs' in answer) == ('requires' in goal[1])

    ways = {(0, 0): []}
    for i, answer in enumerate(given):
        for j in range(len(goals) + 1):
            way = ways.get((i, j))
            if way is not None:
                if answer == '(λ c. search rules)':
                    ways.setdefault((i + 1, j), way)
                if j < len(goals) and fits(answer, goals[j]):
                    ways[i + 1, j + 1] = way + [i]
    return ways.get((len(given), len(goals)))


def turned(text, names, say):
    code = re.sub(r'(^|[ \t])--.*$', '', text, flags=re.M)
    given = arguments(code)
    goal_of = {}
    if given is not None:
        extra = 2 * len(names.loops)
        if len(given) != extra + len(names.goals):
            asked = {owner: re.sub('^(overflow|nonzero)_', '', plain(goal))
                     for owner, goal in re.findall(r"^([\w'-]+) : tie\.Need-([^\s()]+)", text, re.M)}
            kept = fitting(given[extra:], names.goals, asked)
            if kept is None:
                say(f'{len(given)} answers for {len(names.goals)} goals and {len(names.loops)} loops')
            else:
                given = given[:extra] + [given[extra + i] for i in kept]
                head, rest = text.split('tie.spec', 1)
                text = head + 'tie.spec ' + ' '.join(given) + rest[rest.rindex(')'):]
        if len(given) == extra + len(names.goals):
            goal_of = {answer: goal for answer, (_, goal) in zip(given[extra:], names.goals) if re.fullmatch(r"[\w'-]+", answer)}

    def goal(found):
        owner, old = found[1], found[2]
        new = goal_of.get(owner)
        if new is None:
            bare = re.sub(r'^(overflow|nonzero)_', '', plain(old))
            fits = [it for name, it in names.goals if name in (plain(old), bare)]
            new = fits[0] if fits else None
            if new is None:
                say(f'no goal {old}')
                return found[0]
        return f'{owner} : tie.Need-{new}'

    text = re.sub(r"^([\w'-]+) : tie\.Need-([^\s()]+)", goal, text, flags=re.M)

    def loop(found):
        word, rest = found[1], found[2]
        fits = names.loops.get('loop' + rest)
        if not fits:
            say(f'no loop {found[0]}')
            return found[0]
        return f'tie.{word}-{fits[0]}'

    text = re.sub(r'\btie\.(invariant|decreases)[-_]loop(\d*)(?![\w-])', loop, text)

    text = re.sub(r"\.pre(?![\w'-])", '.requires', text)
    text = re.sub(r"\.(if\d+)\.(taken|left)(?![\w'-])", lambda found: f'.{found[1]}.' + {'taken': 'true', 'left': 'false'}[found[2]], text)
    text = re.sub(r"(?<=\.)type-inv(?![\w'-])", 'type_inv', text)
    text = re.sub(r"((?:\bargs|\ba)\.)t(\d+)(?![\w-])", lambda found: found[1] + names.parameters.get(int(found[2]), 't' + found[2]), text)

    def place(found):
        new = names.places.get(found[1].replace('-', '_'))
        return f'tie.{new}' if new else found[0]

    text = re.sub(r"\btie\.((?:Then|Else|After|In|At|Start|Arm|Case|Join)[^\s().,;]*)", place, text)

    def path(found):
        parts = found[0].split('.')
        for i in range(1, len(parts)):
            if i > 1 and parts[i - 1] != 'before':
                continue
            new = names.steps.get(plain(parts[i]))
            ends = i + 1 == len(parts) and (i > 1 or parts[0] == 'c')
            if new and (ends or i + 1 < len(parts) and (parts[i + 1] in FIELDS or re.match('loop|if[0-9]', plain(parts[i])))):
                parts[i] = new
        # A step is found from any place behind it.
        last = 1
        while parts[last:last + 1] == ['before']:
            last += 1
        if last > 1 and last < len(parts) and (parts[last] in ('args', 'requires', 'ranges') or parts[last] in names.steps.values()):
            del parts[1:last]
        return '.'.join(parts)

    lines = []
    for line in text.split('\n'):
        if not line.startswith(('use ', '--')):
            line = re.sub(r"(?<![\w.'·)])[a-z][\w'₀-₉]*(?:\.[^\s(){}.;,@\"«»\[\]\\]+)+|\)(?:\.[^\s(){}.;,@\"«»\[\]\\]+)+", path, line)
        lines.append(line)
    return '\n'.join(lines)


def main():
    listed, room = sys.argv[1:]
    room = pathlib.Path(room)
    given = parameters(room)
    for module, of in json.loads(pathlib.Path(listed).read_text('utf-8')).items():
        found = re.fullmatch(r'Rattle-\w+-proofs\.(.*)\.Lts', module)
        file = found and room / 'proofs' / found[1].replace('.', '/') / 'Proof.antt'
        if file and file.exists():
            text = file.read_text('utf-8')
            file.write_text(turned(text, Names(of, given.get(found[1].split('.')[-1], {})), lambda what: print(f'{file}: {what}')), 'utf-8')


if __name__ == '__main__':
    main()
