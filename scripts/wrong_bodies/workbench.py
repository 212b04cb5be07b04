"""A copy of a crate in which edits are checked."""

import os
import shutil
import subprocess
import time

from kept import TOP, said_by_rt
from wrong_bodies.answers import answered_in
from wrong_bodies.edits import bodies_of, edited, folder_of, module_of, read, sources_of, untried, without_bodies, write

# the files of a function's proof, and the proof of a function that isn't looked at
OF_A_PROOF = ("Answers.antt", "Invariants.antt", "Proof.antt")
HOLE = """use Rattle.{crate}.{module}.Statement.{{statement}}

pub {name}_spec : {{M : Type 1}} → statement M
{name}_spec = ?
"""
# a line that is refused, and behind which no answers are offered: to print them is a third of a small check
OFFERED = "no_offers"
NO_OFFERS = f"\n{OFFERED} : nothing\n"


class Bench:
    """A copy of a crate in which edits are checked, and the processor seconds that this took.

    A proof rests on what the functions that it calls promise, and neither on their bodies nor on their proofs. So only
    functions that are edited have theirs here: each other one has nothing in its body, and a hole for its proof."""

    def __init__(self, crate, uses, libraries, room, end=None):
        self.crate, self.top, self.room, self.end = crate, os.path.join(TOP, "crates", crate), room, end
        self.uses = uses
        self.seconds, self.instead, self.is_whole = 0, {}, False
        # which goals are proved in functions as they are, which goals these haven't, and functions that are then tried in
        # place, not in a copy
        self.sound, self.missing, self.in_place = {}, set(), set()
        for part in ("src", "specs", "proofs"):
            if os.path.isdir(os.path.join(self.top, part)):
                shutil.copytree(os.path.join(self.top, part), os.path.join(room, part))
        self.modules = {"", *map(module_of, sources_of(crate))}
        self.functions = bodies_of(crate)
        self.folders = {function.path: folder_of(function.path) for function in self.functions}
        self.by_hand = {path for path in self.folders if os.path.isfile(self.file_of(path, "Proof.antt"))}
        for path in self.folders:
            self.put_hole(path)
        for file, text in sources_of(crate).items():
            self.put_source(file, text, ())
        kit = os.path.dirname(said_by_rt("doc"))
        root = "main" if os.path.isfile(os.path.join(room, "src", "main.rt")) else "lib"
        self.words = [f"{kit}/bin/rattle", "check", "--crate-name", crate, f"src/{root}.rt", "--jobs", "1"]
        for use in ["std", *uses[crate]]:
            self.words += ["--extern", f"{use}={libraries if use in uses else kit + '/rlibs'}/{use}.rlib"]
        self.words += ["-L", f"dependency={kit}/rlibs", "-L", f"dependency={libraries}", "--incremental", "out"]
        self.words += ["--antt-project", f"{kit}/rattle/logic/antt-project.json", "--logic-built", f"{kit}/logic_built"]
        self.words += ["--allow-holes"]

    def is_over(self):
        """Whether no check is to be begun any more."""
        return self.end is not None and time.monotonic() > self.end

    def file_of(self, path, name):
        """A file of the function's own proof."""
        return os.path.join(self.top, self.folders[path], name)

    def answers_of(self, path):
        """The text of the function's own answers."""
        file = self.file_of(path, "Answers.antt")
        return read(file) if os.path.isfile(file) else ""

    def answered_in(self, path):
        """The goals of a function that have an answer written by hand."""
        return answered_in(self.answers_of(path))

    def put_hole(self, path):
        """Puts a hole in the place of the function's proof."""
        folder = self.folders[path]
        hole = HOLE.format(module=folder.replace("/", "."), crate=self.crate, name=path.rpartition("::")[2])
        self.put_files(folder, {"Proof.antt": hole})

    def proof_of(self, path, pruned, is_short):
        """The files of the function's own proof, without what was pruned, and with a line that spares offers."""
        folder = self.folders[path]
        files = [(name, self.file_of(path, name)) for name in OF_A_PROOF]
        texts = {name: read(file) for name, file in files if os.path.isfile(file)}
        texts |= {name: pruned[f"{folder}/{name}"] for name in OF_A_PROOF if f"{folder}/{name}" in pruned}
        if is_short and "Proof.antt" not in texts:
            texts["Answers.antt"] = texts.get("Answers.antt", "") + NO_OFFERS
        return texts

    def put_copy(self, edit, is_short):
        """Puts a copy of the function that the edit is of behind the others of its file, and one of its proof."""
        function, (path,) = edit.functions[0], edit.asks()
        text = edited(sources_of(self.crate)[function.file], function.file, edit.pairs)
        text = untried(text, function) if edit.is_answered else text
        lines, told = function.copied(text, path.rpartition("::")[2])
        file, folders = os.path.join(self.room, function.file), (self.folders[function.path], folder_of(path))
        text = read(file)
        edit.put_at(edit.copy, [text.count("\n") + at for at in told])
        write(file, text + "\n".join(lines) + "\n")
        own, new = (f"Rattle.{self.crate}.{folder.replace('/', '.')}." for folder in folders)
        proof = self.proof_of(function.path, edit.pruned, is_short)
        self.put_files(folders[1], {name: text.replace(own, new) for name, text in proof.items()})

    def put_source(self, file, text, paths):
        """Writes a source file, where only the functions at these paths have their bodies."""
        others = [function for function in self.functions if function.file == file and function.path not in paths]
        write(os.path.join(self.room, file), text if self.is_whole else without_bodies(text, others))

    def put_bodies(self):
        """Puts all functions' bodies back."""
        self.is_whole = True
        for file, text in sources_of(self.crate).items():
            self.put_source(file, text, ())

    def put_files(self, folder, texts):
        os.makedirs(os.path.join(self.room, folder), exist_ok=True)
        for name in OF_A_PROOF:
            file = os.path.join(self.room, folder, name)
            if name in texts:
                write(file, texts[name])
            elif os.path.isfile(file):
                os.remove(file)

    def check(self, edits, is_short=True):
        """Puts the edits in, and gives what a check of their functions says; a short one offers no proofs."""
        copies, others = [edit for edit in edits if edit.copy], [edit for edit in edits if not edit.copy]
        pruned = {file: text for edit in others for file, text in edit.pruned.items()}
        paths = [path for path in self.folders if any(edit.is_of(path) for edit in others)]
        for path in paths:
            self.put_files(self.folders[path], self.proof_of(path, pruned, is_short))
        sound, pairs = sources_of(self.crate), [it for edit in edits for it in edit.pairs_in_place()]
        files = {*(it.file for it in self.functions if it.path in paths), *(file for file, _, _ in pairs)}
        answered = [edit.functions[0] for edit in others if edit.is_answered]
        for file in files:
            text = edited(sound[file], file, pairs)
            for function in (it for it in answered if it.file == file):
                text = untried(text, function)
            self.put_source(file, text, paths)
        for edit in copies:
            self.put_copy(edit, is_short)
        said = self.rattle({it for edit in edits for it in edit.asks()})
        for file in files | {edit.functions[0].file for edit in copies}:
            self.put_source(file, sound[file], ())
        for path in paths:
            self.put_hole(path)
        for edit in copies:
            shutil.rmtree(os.path.join(self.room, folder_of(edit.asks()[0])))
        return said

    def rattle(self, paths):
        """Runs the check. For a path that fits no function, or several, its module is looked at."""
        asked = {self.instead.get(path, path) for path in paths}
        only = [word for path in sorted(asked) for word in ("--only", path)] if all(asked) else []
        with open(os.path.join(self.room, "log"), "w+", encoding="utf-8", errors="replace") as log:
            words = [*self.words, *only]
            running = subprocess.Popen(words, cwd=self.room, stdin=subprocess.DEVNULL, stdout=log, stderr=log)
            _, status, used = os.wait4(running.pid, 0)
            running.returncode = os.waitstatus_to_exitcode(status)
            self.seconds += used.ru_utime + used.ru_stime
            log.seek(0)
            said = log.read()
        unknown = {path for path in asked - self.modules if f"`{path}`" in said}
        if running.returncode != 2 or not unknown:
            return said
        self.instead |= {path: self.module_above(path) for path in unknown}
        return self.rattle(paths)

    def module_above(self, path):
        """The module that the path begins with; the crate's own has no name."""
        while path not in self.modules:
            path = path.rpartition("::")[0]
        return path
