#!/usr/bin/env python3
"""crates.txt lists for each room the rooms and libraries that its files name, and no other. Fails where an entry is named by no file
of its room, or where a room is named and not listed. What the toolchain gives every room (std, its logic) is no room.
Usage: tests/rooms.py [CHECKOUT]
"""
import pathlib
import re
import sys

NAMED = re.compile(r'\bRattle\.(\w+)\.|\b(\w+)::')


def named(room):
    """What the files of a room name: in paths of specs and proofs, in calls and uses."""
    found = set()
    for part, kind, mark in ('src', '*.rt', '//'), ('specs', '*.antt', '--'), ('proofs', '*.antt', '--'):
        for path in sorted((room / part).rglob(kind)):
            text = re.sub(rf'(^|[ \t]){mark}.*$', '', path.read_text('utf-8'), flags=re.M)
            found |= {name for pair in NAMED.findall(text) for name in pair if name}
    return found


def main():
    top = pathlib.Path(sys.argv[1] if len(sys.argv) > 1 else pathlib.Path(__file__).parent.parent)
    lists = {room: rest.split() for room, rest in re.findall(r'^(\w+)(?: staticlib)?:(.*)', (top / 'crates.txt').read_text(), re.M)}
    wrong = []
    for room, listed in lists.items():
        names = named(top / 'crates' / room)
        wrong += [f'{room} lists {other}, which no file of it names' for other in listed if other not in names]
        wrong += [f'{room} names {other}, which is not listed' for other in sorted((names & lists.keys()) - {room, *listed})]
    print(*(f'crates.txt: {line}' for line in wrong), sep='\n', end='\n' if wrong else '')
    return 1 if wrong else 0


if __name__ == '__main__':
    sys.exit(main())
