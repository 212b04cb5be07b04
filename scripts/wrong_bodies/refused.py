#!/usr/bin/env python3
"""Which wrong bodies the prover has refused, by sums of all that this rests on: the files crates/*/wrong/refused.

    python3 scripts/wrong_bodies/refused.py

says which wrong bodies are noted there whose edit is gone, and ends with status 1 where there are any. All else here is
for the scripts that try them.

Such a file has a line for each wrong body of its crate that was refused: its name, a sum, and one of its own texts. A
proof rests on what the functions that it calls promise, and neither on their bodies nor on their proofs. So the sum is
one over

- the wrong body as it stands in the functions that it changes, the goal that it names, and these functions' own proofs;
- the bodies that are tried with it and mean the same as the right ones;
- of their crate, and of each crate below it, what stands outside of bodies (what functions promise, types, constants),
  the definitions, and the lemmas;
- the kit's logic, and the scripts that try a wrong body, judge it and note it, but for their remarks.

Where a wrong body is no function's, or is refused only beside the bodies of all others, it is one over all files of the
crate in place of its parts of these. What the kit has besides its logic isn't in it: its prover, and what its crates
promise.

A line is written anew, and never taken away, by a script. So a wrong body that was refused once doesn't vanish unseen:
whoever deletes its edit deletes its line in the same commit.
"""

import argparse
import ast
import functools
import hashlib
import os
import re
import sys

sys.path.append(os.path.dirname(sys.path[0]))  # scripts/

from kept import TOP, files_of, said_by_rt
from prove import uses_of_all, with_all_below
from wrong_bodies.edits import bodies_of, controls_of, edited, edits_of, folder_of, read, sources_of, without_bodies, write
from wrong_bodies.witnesses import texts_of
from wrong_bodies.workbench import OF_A_PROOF

HEAD = '# What the prover refused, each by a sum of all that this rests on: docs/tests.md, "Wrong bodies".\n'
# the scripts that try wrong bodies, and those by which one is shown by a row; what they import is summed too
TRYING, BUILDING = ("gate.py", "wrong_bodies/__main__.py"), ("measure/optimised.py", "wrong_bodies/witnesses.py")
# what of a script matters to a verdict; of the others all does
OF_A_TRY = {"gate.py": ("WrongBodies", "passed_on", "keep_proved")}
IMPORT = re.compile(r"^(?:from|import) ([\w.]+)", re.M)
OPEN = "open"  # stands in the place of the sum where a wrong body was refused once, and isn't any more
DAYS = 10  # in so many days each wrong body is tried again once, also where it is known to be refused
LOGIC = re.compile(r" logic (\w+)$")
# a line that is a remark, of a source file and of one of definitions or proofs
REMARKS = {".rt": re.compile(r"\s*//"), ".antt": re.compile(r"\s*--(\s|$)")}


def sum_over(*texts):
    return hashlib.sha256(repr(texts).encode()).hexdigest()[:32]


def without_remarks(text, kind=".rt"):
    """A file's lines but for blank ones and remarks. Those in a text of several lines stay, and so do all where it isn't
    seen where such a text ends."""
    left, is_in_text = [], False
    for line in text.split("\n"):
        if is_in_text or line.strip() and not REMARKS[kind].match(line):
            left.append(line)
            is_in_text ^= re.sub(r"\\.|'\"'", "", line).count('"') % 2 == 1
    return text.split("\n") if is_in_text else left


def scripts_from(first):
    """These scripts, and those that they import."""
    found, left = set(), list(first)
    while left:
        script = left.pop()
        if script not in found and os.path.isfile(os.path.join(TOP, "scripts", script)):
            found.add(script)
            left += [f"{name.replace('.', '/')}.py" for name in IMPORT.findall(read(os.path.join(TOP, "scripts", script)))]
    return sorted(found)


def meaning_of(script):
    """The tree of what matters of a script, without what is said of its parts."""
    tree = ast.parse(read(os.path.join(TOP, "scripts", script)))
    if script in OF_A_TRY:
        tree.body = [part for part in tree.body if getattr(part, "name", None) in OF_A_TRY[script]]
    for part in ast.walk(tree):
        if isinstance(part, (ast.Module, ast.ClassDef, ast.FunctionDef)) and ast.get_docstring(part) is not None:
            part.body = part.body[1:]
    return ast.dump(tree)


@functools.cache
def files_below(crate, part):
    """The lines of a crate's files of a part of it, but for blank ones and remarks, by their paths in the crate."""
    top = TOP / "crates" / crate
    return {str(path.relative_to(top)): without_remarks(read(path), path.suffix) if path.suffix in REMARKS else read(path)
            for path in files_of(crate, (part,))}


@functools.cache
def lines_with(crate, file, paths=(), pairs=()):
    """The lines of a crate's source file with the new texts of these pairs, which have as many lines as the old ones, and
    where of all functions only those at these paths have their bodies."""
    others = [function for function in bodies_of(crate) if function.file == file and function.path not in paths]
    return without_remarks(without_bodies(edited(sources_of(crate)[file], file, pairs), others))


def sources_with(crate, functions=(), pairs=()):
    """The lines of a crate's source files, where these functions alone have bodies, and with these pairs' new texts."""
    paths, files = tuple(it.path for it in functions), {*(it.file for it in functions), *(file for file, *_ in pairs)}
    return [(file, lines_with(crate, file, paths, pairs) if file in files else lines_with(crate, file))
            for file in sorted(sources_of(crate))]


def proofs_of(crate, functions=()):
    """A crate's lemmas, and these functions' own proofs. A module with a name as a function's proof has is one of lemmas
    where it stands in no function's folder."""
    own = tuple(f"{folder_of(function.path)}/" for function in functions)
    others = {f"{folder_of(function.path)}/{name}" for function in bodies_of(crate) for name in OF_A_PROOF}
    return {path: text for path, text in files_below(crate, "proofs").items()
            if path not in others or path.startswith(own)}


def text_of(edit):
    """A short sum of a wrong body's own texts."""
    return sum_over(edit.pairs)[:8]


class Grounds:
    """What it rests on that a wrong body is refused, as the files are now."""

    def __init__(self, uses):
        self.uses, self.version, self.sums = uses, said_by_rt("version"), {}
        self.logic = LOGIC.search(self.version)[1]
        self.scripts = [(it, meaning_of(it)) for it in scripts_from(TRYING) if it not in BUILDING]
        self.builders = [(it, meaning_of(it)) for it in scripts_from(BUILDING)]
        self.stamps = {crate: stamps_of(crate) for crate in uses}

    def is_as_it_was(self, crate):
        """Whether no file that the crate's proof reads was changed meanwhile, not even changed and put back."""
        return all(stamps_of(below) == self.stamps[below] for below in with_all_below(crate, self.uses, []))

    def promises_of(self, crate):
        """A sum of what proofs above a crate rest on of it, and of those below it."""
        if crate not in self.sums:
            own = [sources_with(crate), files_below(crate, "specs"), proofs_of(crate)]
            self.sums[crate] = sum_over(own, self.promises_below(crate))
        return self.sums[crate]

    def promises_below(self, crate):
        return [self.promises_of(use) if use in self.uses else use for use in self.uses[crate]]

    def sum_of(self, edit, is_beside_all):
        """The sum of what it rests on that a wrong body is refused, by itself or beside the bodies of all functions."""
        crate = edit.crate
        if edit.row:
            return self.sum_by_row(edit)
        if is_beside_all or edit.is_apart:
            own = [edit.pairs, files_below(crate, "src"), files_below(crate, "proofs")]
        else:
            own = [sources_with(crate, edit.functions, tuple(edit.pairs)), proofs_of(crate, edit.functions)]
        asked = [edit.pairs, edit.goal, edit.is_hard, sorted(edit.others), files_below(crate, "specs")]
        beside = [(control.pairs, control.goal, control.is_hard) for control in controls_of(crate) if not control.row]
        return sum_over(self.logic, self.scripts, asked, beside, own, self.promises_below(crate))

    def sum_by_row(self, edit):
        """The sum of what it rests on that a wrong body is shown by a row: the program's sources, but for remarks, the row,
        and what builds and compares."""
        sources = [files_below(below, "src") for below in with_all_below("hd_replay", self.uses, [])]
        beside = [(control.pairs, control.row) for control in controls_of(edit.crate) if control.row]
        return sum_over(self.version, self.builders, edit.pairs, texts_of(edit.row), beside, sources)

    def is_known(self, edit):
        """Whether a wrong body is known to be refused as it stands."""
        known, _ = known_of(edit.crate).get(edit.name, (None, None))
        if known is None or edit.misfit:
            return False
        edit.is_beside_all = known != self.sum_of(edit, False) and known == self.sum_of(edit, True)
        return edit.is_beside_all or known == self.sum_of(edit, False)

    def note(self, crate, edits):
        """Writes that these wrong bodies of the crate are refused, and that others which were noted aren't any more;
        nothing where a file was changed."""
        if not self.is_as_it_was(crate):
            print(f"{crate}: what its wrong bodies are tried over was changed meanwhile, so nothing is noted", flush=True)
            return
        noted = {name: (OPEN, text) for name, (_, text) in known_of(crate).items()}
        noted |= {edit.name: (self.sum_of(edit, edit.is_beside_all), text_of(edit)) for edit in edits}
        write(path_of(crate), HEAD + "".join(f"{name} {total} {text}\n" for name, (total, text) in sorted(noted.items())))


def stamps_of(crate):
    """What tells whether a file was changed that the crate's own proof reads."""
    return [(path, path.stat().st_mtime_ns, path.stat().st_size) for path in files_of(crate)]


def path_of(crate):
    return os.path.join(TOP, "crates", crate, "wrong", "refused")


@functools.cache
def known_of(crate):
    """Of each wrong body of the crate that was refused the sum, and that of its own texts, where it has one."""
    lines = read(path_of(crate)).split("\n") if os.path.isfile(path_of(crate)) else []
    found = [line.split() for line in lines if line and not line.startswith("#")]
    return {name: (total, text[0] if text else "-") for name, total, *text in found}


def lost_of(crates, edits, refused):
    """What is to be said of the wrong bodies that were refused once and aren't among the edits any more, or only with
    another text that isn't among those that are refused."""
    lost, by_name = [], {(edit.crate, edit.name): edit for edit in edits}
    for crate in crates:
        for name, (_, text) in known_of(crate).items():
            edit = by_name.get((crate, name))
            if edit is None:
                lost.append(f"{crate}/{name}: it was refused, and its edit is gone: put it back, or delete its line in "
                            f"crates/{crate}/wrong/refused in the same commit")
            elif edit not in refused and text not in ("-", text_of(edit)):
                lost.append(f"{crate}/{name}: it was refused, and its edit has another text since, which isn't refused")
    return lost


def is_due(crate, day):
    """Whether the wrong bodies of the crate are tried again on a day: on each tenth one. Which that is its name alone
    says, so that no other crate and no new edit moves it."""
    return (int(hashlib.sha512(crate.encode()).hexdigest(), 16) - day.toordinal()) % DAYS == 0


def main():
    argparse.ArgumentParser(description=__doc__, usage=argparse.SUPPRESS,
                            formatter_class=argparse.RawDescriptionHelpFormatter).parse_args()
    crates = uses_of_all()
    edits = [edit for crate in crates for edit in edits_of(crate)]
    lost = lost_of(crates, edits, edits)  # none is tried here
    print("\n".join([*lost, f"refused: {len(lost)} of the noted wrong bodies have no edit any more"]))
    sys.exit(1 if lost else 0)


if __name__ == "__main__":
    main()
