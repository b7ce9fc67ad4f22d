#!/usr/bin/env python3
"""Wrong definitions that the round trip must refuse.

Each edit changes one definition of the coder (crates/entcode/specs) or of frames (crates/silk/specs) in a copy of the crates, and the
check of `roundtrip`, or for frames of `frame_roundtrip`, has to be refused by the law that the edit names, there or in a crate below it.
One line per edit: the crate, and the laws that are no longer proved (not those that only cite them). Fails if an edit is accepted, does
not apply, or is refused otherwise.
Usage: tests/wrong_definitions.py
"""
import concurrent.futures
import os
import re
import shutil
import subprocess
import sys
import tempfile

ROOT = os.path.dirname(os.path.dirname(os.path.abspath(__file__)))

# what is wrong, a law that it must break, the file, the right text, the wrong one
CODER = [
    ("a carry is lost at a held byte", "swept_carry", "Front.antt", "(b + k) % 256 ∷ []", "b % 256 ∷ []"),
    ("255s stay 255 behind a carry", "carry_number", "Front.antt", "replicate x ((255 + c / 256) % 256)", "replicate x 255"),
    ("one bit too few at finishing", "bits_enough", "Finish.antt",
     "(suc (count_leading_zeros 32 r))\n", "(count_leading_zeros 32 r)\n"),
    ("left-over bits a byte too low", "or_tidy", "Finish.antt",
     "set r.buf (length r.buf - suc r.end) (bit_or (get_or r.buf (length r.buf - suc r.end) 0) x)",
     "set r.buf (length r.buf - suc (suc r.end)) (bit_or (get_or r.buf (length r.buf - suc (suc r.end)) 0) x)"),
    ("the reader's bit test is off by one", "bit_holds", "Reader.antt",
     "cond (ltb val (rng / 2 ^ lp)) 1 0", "cond (ltb val (suc (rng / 2 ^ lp))) 1 0"),
    ("the writer's total does not count a turn", "loose_shift", "Writer.antt",
     "(shift_out w.front)) (w.total + 8)", "(shift_out w.front)) w.total"),
    ("a dropped byte is no error", "put_full", "Room.antt", "end = r.end; err = 1 }", "end = r.end; err = r.err }"),
    ("the middle is not cleared", "clear_tidy", "Finish.antt", "replicate (length r.buf - r.end - r.offs) 0 ++",
     "drop r.offs (take (length r.buf - r.end) r.buf) ++"),
]

FRAMES = [
    ("the writer's sign symbol 0 is plus", "sign_meant", "PulseSyntax.antt",
     "(λ z. cond (lt_z z (pos 0)) 0 1)", "(λ z. cond (lt_z z (pos 0)) 1 0)"),
    ("the writer says the lowest low bit each time", "low_bits_meant", "PulseSyntax.antt", "(λ y. y / 2 ^ n % 2)", "(λ y. y % 2)"),
    ("the writer counts the right half", "split_meant", "PulseSyntax.antt",
     "(λ y. total (take (2 ^ k) y))", "(λ y. total (drop (2 ^ k) y))"),
    ("a block that no shift suits is written", "rule_least", "PulseWriting.antt", "every (λ p. leb (smallest rate signal offset p) 10) ps",
     "every (λ p. leb (smallest rate signal offset p) 11) ps"),
    ("a record that means another is written", "meant_is", "IndexWriting.antt",
     "&& same_indices (meant x (indices s x)) x\n", "&& true\n"),
    ("the writer hands on an unvoiced frame's lag", "steps_read", "IndexWriting.antt",
     "prevlag = next_lag s.prevlag x }", "prevlag = x.lag }"),
]

# the crate whose definitions are edited, the one that is checked
EDITS = [("entcode", "roundtrip", edit) for edit in CODER] + [("silk", "frame_roundtrip", edit) for edit in FRAMES]


REFUSED = re.compile(r"^\S+\.antt:\d+:\d+: error: `([^`]+)`: (?!`[^`]+` was not admitted)", re.M)
UNBUILT = re.compile(r"^rt: the library (\w+) did not build", re.M)


def check(tree, crate):
    """Whether the crate is proved; the crate that is refused, it or one below it, and its laws that are; all that was said."""
    folder = os.path.join(tree, "crates", crate)
    run = subprocess.run(["rt", "check"], cwd=folder, stdout=subprocess.PIPE, stderr=subprocess.STDOUT, text=True)
    unbuilt = UNBUILT.search(run.stdout)
    return run.returncode == 0, unbuilt[1] if unbuilt else crate, list(dict.fromkeys(REFUSED.findall(run.stdout))), run.stdout


def listed():
    """What each crate names in crates.txt."""
    with open(os.path.join(ROOT, "crates.txt"), encoding="utf-8") as f:
        return {name: rest.split() for name, rest in re.findall(r"^(\w+)(?: staticlib)?:(.*)", f.read(), re.M)}


def below(crate, lists):
    """A crate and those that it rests on."""
    return {crate}.union(*(below(name, lists) for name in lists[crate] if name in lists))


def copy_of(tmp, crate):
    """A tree of a crate and those below it. Its checks begin with what rt kept of these elsewhere."""
    tree, lists = os.path.join(tmp, crate), listed()
    names = sorted(below(crate, lists))
    for name in names:
        for part in "src", "specs", "proofs":
            if os.path.isdir(os.path.join(ROOT, "crates", name, part)):
                shutil.copytree(os.path.join(ROOT, "crates", name, part), os.path.join(tree, "crates", name, part))
    with open(os.path.join(tree, "crates.txt"), "w", encoding="utf-8") as f:
        f.writelines("%s: %s\n" % (name, " ".join(lists[name])) for name in names)
    return tree


def tried(tree, edited, checked, edit):
    """Whether an edit is refused by its law, and a line that says so."""
    name, law, file, right, wrong = edit
    path = os.path.join(tree, "crates", edited, "specs", file)
    with open(path, encoding="utf-8") as f:
        text = f.read()
    if text.count(right) != 1:
        return False, "DOES NOT APPLY  %s" % name
    with open(path, "w", encoding="utf-8") as f:
        f.write(text.replace(right, wrong))
    ok, refused, laws, _ = check(tree, checked)
    with open(path, "w", encoding="utf-8") as f:
        f.write(text)
    if ok or law not in laws:
        return False, "%s  %s" % ("ACCEPTED" if ok else "NOT REFUSED BY " + law, name)
    return True, "refused  %s: %s %s" % (name, refused, ", ".join(laws))


def worker(tree, edits):
    """Tries edits of one crate, after that the crate is proved without them."""
    ok, _, _, said = check(tree, edits[0][1])
    if not ok:
        return [(False, "the tree as it stands is refused:\n" + said)]
    return [tried(tree, *edit) for edit in edits]


def main():
    shares = [[edit for edit in EDITS if edit[1] == checked] for checked in dict.fromkeys(checked for _, checked, _ in EDITS)]
    with tempfile.TemporaryDirectory() as tmp, concurrent.futures.ThreadPoolExecutor() as pool:
        trees = [copy_of(tmp, share[0][1]) for share in shares]
        results = [result for share in pool.map(worker, trees, shares) for result in share]
    print(*(line for _, line in results), sep="\n")
    failed = sum(not good for good, _ in results)
    print("%d edits, %d not refused" % (len(EDITS), failed))
    return 1 if failed else 0


if __name__ == "__main__":
    sys.exit(main())
