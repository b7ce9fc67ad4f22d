#!/usr/bin/env python3
"""Keeps what the prover says of each must-fail edit (crates/ROOM/must-fail/EDIT.edit) as target/edits/ROOM/EDIT.log, for edit_errors.py.

`rt ci` tries every edit and shows one line of why it is refused. Here an edit is tried in a copy of its room once more, the same way:
over the libraries that rt has built and what its check of the room has kept (`rt all check`), so that only what the edit reaches is
checked. A room that is not proved as it stands over these is not tried.

Prints a line for each edit that is not refused, and last how many were. Fails where one is not refused or not tried.
Usage: tests/edit_logs.py [ROOM...]
"""
import concurrent.futures
import functools
import os
import pathlib
import re
import shutil
import subprocess
import sys
import tempfile

TOP = pathlib.Path(__file__).resolve().parent.parent
LOGS = TOP / 'target/edits'
ROUNDS = 3  # checks over names brought up to date, at most


@functools.cache
def kit():
    """The toolchain's folder."""
    guide = subprocess.run(['rt', 'doc'], capture_output=True, text=True, check=True).stdout.strip()
    return pathlib.Path(guide).parent


@functools.cache
def listed():
    """What each room names in crates.txt, and whether it is a static library."""
    lines = re.findall(r'^(\w+)( staticlib)?:(.*)', (TOP / 'crates.txt').read_text('utf-8'), re.M)
    return {room: (names.split(), bool(static)) for room, static, names in lines}


@functools.cache
def below(room):
    """The rooms that a room rests on."""
    found = {}
    for name in listed()[room][0]:
        if name in listed():
            found.update(dict.fromkeys([*below(name), name]))
    return tuple(found)


def library(room):
    return TOP / f'crates/{room}/out/rlib/{room}.rlib'


def words(room):
    """How rt has a room checked over what is kept."""
    names, static = listed()[room]
    root = 'src/main.rt' if (TOP / f'crates/{room}/src/main.rt').exists() else 'src/lib.rt'
    found = ['--crate-name', room, root, '-L', f'dependency={kit()}/rlibs']
    for name in ['std', *names]:
        found += ['--extern', f'{name}={library(name) if name in listed() else kit() / "rlibs" / (name + ".rlib")}']
    for name in below(room):
        found += ['-L', f'dependency={library(name).parent}']
    found += ['--antt-project', kit() / 'rattle/logic/antt-project.json', '--logic-built', kit() / 'logic_built', '--jobs', '1']
    return found + ['--links', f'{room}='] + ['--crate-type', 'staticlib'] * static


def check(room, where, kept):
    """A check of a copy of a room: its status and what it said."""
    run = subprocess.run([kit() / 'bin/rattle', 'check', *words(room), '--incremental', kept], cwd=where, stdin=subprocess.DEVNULL,
                         stdout=subprocess.PIPE, stderr=subprocess.STDOUT)
    return run.returncode, run.stdout.decode('utf-8', 'replace')


def linked(kept, to):
    """A folder of what checks kept, once more: the prover replaces such a file, and changes none."""
    def copy(one, other):
        try:
            os.link(one, other)
        except OSError:
            shutil.copy2(one, other)
    if kept.is_dir():
        shutil.copytree(kept, to, copy_function=lambda one, other: (copy if one.endswith('.oantt') else shutil.copy2)(one, other))
    else:
        to.mkdir(parents=True)


def copied(room, to):
    for part in 'src', 'specs', 'proofs':
        if (TOP / 'crates' / room / part).is_dir():
            shutil.copytree(TOP / 'crates' / room / part, to / part)


class BadEdit(Exception):
    pass


def apply(edit, where):
    """Makes an edit's replacements in a copy of its room: a 'file:' line holds for the 'old:' and 'new:' pairs after it."""
    file, old, pairs = '', '', 0
    for line in edit.read_text('utf-8').split('\n'):
        word, _, rest = line.partition(':')
        rest = rest.removeprefix(' ')
        if word == 'file':
            file = rest
        elif word == 'old':
            old = rest
        elif word == 'new':
            path = where / file
            text = path.read_text('utf-8') if path.is_file() else ''
            if not old or text.count(old) != 1:
                raise BadEdit(f"an 'old:' text stands in {file} {text.count(old) if old else 0} times")
            path.write_text(text.replace(old, rest), 'utf-8')
            old, pairs = '', pairs + 1
    if not pairs:
        raise BadEdit("no 'old:' and 'new:' pair")


def proved(room, seeds):
    """Whether a room is proved as it stands; what was kept of that stands in its folder of seeds."""
    with tempfile.TemporaryDirectory() as copy:
        copied(room, pathlib.Path(copy))
        linked(TOP / 'crates' / room / 'out/incremental', seeds / room)
        return check(room, copy, seeds / room)[0] == 0


NAMELESS = re.compile(r"has no (?:field )?`([\w'-]+|tie\.[\w'-]+)`(.*)")
NAME = re.compile(r"[\w']+(?:-[\w']+)+")


PART = re.compile(r'-?(?:(?:lt|le|gt|ge|eq|ne)(?=\d|minus)|[^-]+)')


def renamed(old, offered):
    """A name's part that an edit changed and what it made of it, each behind the two parts before: where one of the names offered
    differs in one part alone."""
    old = PART.findall(old)
    for new in map(PART.findall, offered):
        differ = [i for i, pair in enumerate(zip(old, new)) if len(set(pair)) > 1]
        if len(old) == len(new) and len(differ) == 1 and differ[0] > 0:
            at = slice(max(differ[0] - 2, 0), differ[0] + 1)
            return ''.join(old[at]).strip('-'), ''.join(new[at]).strip('-')
    return None


def respelled(said, where):
    """Whether names in a copy's proofs were brought to what the edit made of them. A goal and a step are named by the test before
    them, as `if-n-lt10` by `n < 10`: where an edit changes a test, a proof that cites its name says nothing of any fact."""
    found = (renamed(old.removeprefix('tie.'), NAME.findall(rest)) for old, rest in NAMELESS.findall(said))
    pairs = dict(filter(None, found))
    changed = False
    for path in where.glob('proofs/**/*.antt') if pairs else ():
        text = path.read_text('utf-8')
        new = re.sub('|'.join(rf"(?<![\w']){re.escape(old)}(?![\w'])" for old in pairs), lambda found: pairs[found[0]], text)
        changed = changed or new != text
        path.write_text(new, 'utf-8')
    return changed


def tried(edit, seeds):
    """Whether an edit is refused, and a line that says what became of it."""
    room, name = edit.parts[-3], f'{edit.parts[-3]}/{edit.stem}'
    with tempfile.TemporaryDirectory() as copy:
        where, kept = pathlib.Path(copy, 'room'), pathlib.Path(copy, 'kept')
        copied(room, where)
        linked(seeds / room, kept)
        try:
            apply(edit, where)
        except BadEdit as why:
            return False, f'{name}: BAD EDIT: {why}'
        status, said = check(room, where, kept)
        for _ in range(ROUNDS):
            if status != 1 or not respelled(said, where):
                break
            status, said = check(room, where, kept)
    log = LOGS / room / f'{edit.stem}.log'
    log.parent.mkdir(parents=True, exist_ok=True)
    log.write_text(said, 'utf-8')
    if status == 1 and re.search(r'^logic=not-proved', said, re.M):
        return True, f'{name}: refused'
    return False, f'{name}: ' + ('NOT REFUSED' if status == 0 else f'did not reach the prover (status {status}; {log})')


def main():
    rooms = [room for room in sys.argv[1:] or listed() if any((TOP / 'crates' / room).glob('must-fail/*.edit'))]
    for room in rooms:
        shutil.rmtree(LOGS / room, ignore_errors=True)
    with tempfile.TemporaryDirectory() as kept, concurrent.futures.ThreadPoolExecutor(len(os.sched_getaffinity(0))) as pool:
        seeds = pathlib.Path(kept)
        lost = [room for room, well in zip(rooms, pool.map(lambda room: proved(room, seeds), rooms)) if not well]
        edits = [edit for room in rooms if room not in lost for edit in sorted((TOP / 'crates' / room).glob('must-fail/*.edit'))]
        results = list(pool.map(lambda edit: tried(edit, seeds), edits))
    failed = [line for good, line in results if not good]
    failed += [f'{room}: NOT TRIED: it is not proved over what rt check kept' for room in lost]
    print(*failed, sep='\n', end='\n' if failed else '')
    print(f'{sum(good for good, _ in results)} edits refused; what is not: {len(failed)}')
    return 1 if failed else 0


if __name__ == '__main__':
    sys.exit(main())
