#!/usr/bin/env python3
"""docs/TABLES.md: every inverse row of the sheet below its probabilities, for a reader who has RFC 6716 beside it. docs/HERTZ.md: the
least gaps of the two spectrum books in hertz, for who builds a filter.

Written from crates/sheet/specs: names, starts and lengths by the directory, entries by the flat list (Sheet.antt), probabilities and
sections by Probabilities.antt, gaps by Books.antt. That entries and probabilities agree is proved (`rows_printed`), and so is that gaps
are kept (`decode_always`); neither is looked at here. Fails where a page is stale (--write writes them).
Usage: tests/tables.py [--write] [CHECKOUT]
"""
import pathlib
import re
import sys

ACROSS = 24  # numbers to a line

HEAD = """\
# Tables

All inverse rows of SILK, one behind the other in one list: where each starts, how many entries it has, its probabilities
out of 256, and below each probability its entry: 256 less the sum of the probabilities so far. A symbol of probability 0
before the first that can occur has no entry (`-`). Someone with RFC 6716 beside it can tick off row by row: our summary of
the RFC, from which the definitions were written, prints the probabilities of flags, type, gain, deltaGain, extension,
interpolation, lag, deltaLag, contour 1 to 3, period, scale, even 4, 6 and 8, rate and lowBit; those of the other rows
were worked out from the entries, which are those of the crate and of libopus.

That every row is the inverse of its probabilities, that these are 256 in all, that the rows fill the list and that a
name finds its row is proved (`rows_printed`, `chances_whole`, `sheet_whole`, `names_found`). `tests/tables.py` writes this
page from crates/sheet/specs; the gate fails where it is stale.

{rows} rows, {entries} entries.
"""


def numbers(text):
    return [int(word) for word in re.findall(r'\d+', text)]


def sheet_of(text):
    """The entries, and of each row its name, start and length."""
    entries = re.search(r'^sheet =\n(.*?)\[\]', text, re.M | re.S)[1]
    places = re.findall(r'^    row \(?([\w ]+?)\)? (\d+) (\d+) ∷$', text, re.M)
    return numbers(re.sub('--.*', '', entries)), [(name, int(start), int(size)) for name, start, size in places]


def families_of(text):
    """Of each family of rows the part of a frame, what its comment says, and the probabilities of each row, in the directory's order."""
    found, part = {}, ''
    for block in text.split('\n\n'):
        part = block[len('-- ---- '):] if block.startswith('-- ---- ') else part
        head = re.search(r'^unfoldable pub (\w+) : List \(List ℕ\)\n\1 =\n', block, re.M)
        if head:
            comment = ' '.join(line[len('-- '):] for line in block[:head.start()].splitlines())
            rows = [numbers(row) for row in re.findall(r'\(([\d\s∷]+)\[\]\) ∷', block[head.end():])]
            found[head[1]] = part, comment, rows
    order = re.search(r'^chances =\n(.*?)\n\n', text, re.M | re.S)[1]
    return [found[name] for name in re.findall(r'\w+', order)]


def lines_of(place, chances, entries):
    """A row of the page: its place, and each entry below its probability."""
    name, start, size = place
    column = lambda values: ''.join(f'{value:>4}' for value in values)
    below = ['-'] * (len(chances) - size) + entries[start:start + size]
    left = f'{name:<15}{start:>5}{size:>8}'
    for first in range(0, len(chances), ACROSS):
        yield f'{left:<28}  probability {column(chances[first:first + ACROSS])}'
        yield f'{"":<28}  entry       {column(below[first:first + ACROSS])}'
        left = ''


def page(specs):
    entries, places = sheet_of((specs / 'Sheet.antt').read_text('utf-8'))
    families = families_of((specs / 'Probabilities.antt').read_text('utf-8'))
    rest, last = iter(places), ''
    yield HEAD.format(rows=len(places), entries=f'{len(entries):,}').rstrip()
    for part, comment, rows in families:
        if part != last:
            yield f'\n## {part[0].upper()}{part[1:]}'
            last = part
        yield f'\n### {comment[0].upper()}{comment[1:]}\n\n```\nrow            start  length'
        for chances in rows:
            yield from lines_of(next(rest), chances, entries)
        yield '```'
    if next(rest, None):
        raise SystemExit('tables: the directory has more rows than there are probabilities')


# ---- gaps in hertz

HERTZ = """\
# Gaps in hertz

The values of a line spectrum are the lines of a filter, between 0 and the end of the band: 32,768 is half the sampling
rate, so at so many kHz the value v stands at v x kHz x 1,000 / 65,536 Hz. Lines that touch make the filter unstable. What
`tg_nlsf_decode` leaves, if it is accepted, keeps these distances, whatever the indices are (`decode_apart`:
crates/spectrum/specs/Statement/Always.antt); that a filter of such lines is stable is filter theory and not proved here.
Hertz are rounded down, and behind them stands the distance as values have it.

{summary}

None of them can be larger: `cases_hold` (crates/spectrum/proofs/Cases.antt) has, for either book, indices whose lines are
at all three distances (8 and 12 kHz share a book); the comparison meets all three too, and fails where it does not.

## Gaps of your own

`tg_nlsf_stabilise` keeps any gaps that it accepts: 0 or more each, the last 1 or more, 32,768 together at most
(`stabilise_takes`, `stabilise_always`). For lines at least h Hz apart at a rate of so many kHz ask for gaps of
h x 65,536 / (1,000 x kHz), rounded up: 50 Hz at 16 kHz is a gap of 205. A gap of 0 between two lines lets them touch;
gaps of 1 do not (`gaps_apart`). crates/filter_example is a builder that asks for lines that do not touch, with both calls
in front of it and no test between.

## Every gap of the books

The gap of place i is the least distance of line i from the one before it: of line 0 from 0, of the last place from the
band's end.

{places}

`tests/tables.py` writes this page from crates/sheet/specs/Books.antt; the gate fails where it is stale.
"""


def table(head, rows):
    yield f'| {" | ".join(head)} |'
    yield f'|{"---|" * len(head)}'
    yield from (f'| {" | ".join(row)} |' for row in rows)


def hertz(gap, khz):
    """To thousandths, rounded down: so much at least."""
    thousandths = gap * khz * 1_000_000 // 65_536
    return f'{thousandths // 1000}.{thousandths % 1000:03}'


def hertz_page(specs):
    text = (specs / 'Books.antt').read_text('utf-8')
    narrow, wide = (numbers(gaps) for gaps in re.findall(r'^      gaps = (.*) \[\];$', text, re.M))
    rates = (8, narrow), (12, narrow), (16, wide)
    said = lambda gap, khz: f'{hertz(gap, khz)} Hz ({gap})'
    summary = table(
        ['Rate', 'Lines', "Band's end", 'First line from 0', 'Neighbours', "Last line from the band's end"],
        [[f'{khz} kHz', str(len(gaps) - 1), f'{khz * 500:,} Hz', said(gaps[0], khz), said(min(gaps[1:-1]), khz), said(gaps[-1], khz)]
         for khz, gaps in rates])
    places = table(
        ['Place', *(f'{khz} kHz' for khz, _ in rates)],
        [[str(place), *(said(gaps[place], khz) if place < len(gaps) else '' for khz, gaps in rates)] for place in range(len(wide))])
    return HERTZ.format(summary='\n'.join(summary), places='\n'.join(places))


def main():
    words = [word for word in sys.argv[1:] if word != '--write']
    top = pathlib.Path(words[0] if words else pathlib.Path(__file__).resolve().parent.parent)
    specs, stale = top / 'crates/sheet/specs', False
    for name, text in ('TABLES.md', '\n'.join(page(specs)) + '\n'), ('HERTZ.md', hertz_page(specs)):
        file = top / 'docs' / name
        if '--write' in sys.argv:
            file.write_text(text, 'utf-8')
        elif not file.is_file() or file.read_text('utf-8') != text:
            print(f'tables: docs/{name} is stale; tests/tables.py --write writes it')
            stale = True
    return 1 if stale else 0


if __name__ == '__main__':
    sys.exit(main())
