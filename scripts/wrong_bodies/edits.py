"""Wrong bodies as texts: edits, the functions that they change, and which of them fit into one check."""

import collections
import copy
import functools
import os
import re

from kept import TOP

HEAD = re.compile(r' *(?:pub(?:\([^)]*\))? )?(?:const )?(?:unsafe )?(?:extern "C" )?fn (\w+)')
BLOCK = re.compile(r" *(?:pub(?:\([^)]*\))? )?(?:unsafe )?(?:impl|trait)\b")
TRAIT = re.compile(r" *(?:pub(?:\([^)]*\))? )?(?:unsafe )?trait (\w+)")
GENERICS = re.compile(r"<(?:[^<>]|<(?:[^<>]|<[^<>]*>)*>)*>")
SIGNS = {"&": "Ref", "&mut": "RefMut", "[": "Slice", "()": "Unit"}  # how types are told in a path
CONSTANT = re.compile(r" *(?:pub(?:\([^)]*\))? )?const (\w+): ")
TACTIC = re.compile(r"( *)#\[tactic\(.*\)\]$")  # an attribute that says which tactics are tried
NO_BODY = "unreachable!()"  # what fits in the place of any body
COPY = "_copy{}"  # what a copy of a function is called behind the function's name
# by what means a goal is tried, as it stands behind its name: by the tactics, by these with the facts that its answer in
# proofs/ is made of, or by all that the prover has
BY_TACTICS, BY_FACTS, BY_ALL = "", "by its facts", "by all means"
SOUND = 1_000  # the number of a copy that has no edit


class Function:
    """A function in a source file: its lines, counted from 0, those of its head, and its path as a check prints it, in
    the module of its file, or of its type's file where it is a method of the type and of no trait."""

    def __init__(self, file, lines, first, homes):
        indent = " " * (len(lines[first]) - len(lines[first].lstrip()))
        last = body = first
        if not lines[first].rstrip().endswith(("}", ";")):
            ends = (f"{indent}}}", f"{indent}{{}}")
            last = next((at for at in range(first + 1, len(lines)) if lines[at].startswith(ends)), first)
            body = next((at for at in range(first, last) if re.match(indent + r"(\S.*)?\{$", lines[at])), last)
        above = first  # a check tells of the function at its first attribute
        while above and lines[above - 1].startswith(indent + "#["):
            above -= 1
        self.name, self.file, self.block = HEAD.match(lines[first])[1], file, block_of(lines, first, indent)
        self.lines, self.head, self.told = range(first, last + 1), range(first, body), range(above, last + 1)
        self.body = range(body + 1, last)
        self.text = "\n".join(lines[first : last + 1])
        self.uses = uses_in(lines, self.block)
        head = " ".join(lines[at] for at in self.block)
        promised = TRAIT.match(head)
        self.is_promised, owner = bool(promised), promised[1] if promised else owner_of(head)
        self.is_of_trait = " for " in behind_impl(head)
        own = " ".join(lines[first : body + 1]).partition(self.name)[2]
        self.is_generic = bool(parameters_of(behind_impl(head)) | parameters_of(own)) or "impl " in own
        self.path = "::".join(it for it in (homes.get(owner, module_of(file)), owner, self.name) if it)


    def is_recursive(self):
        """Whether it may call itself."""
        body = self.text.split("\n")[self.body.start - self.lines.start :]
        return any(re.search(rf"(?:Self::|\bself\.|(?<![.:\w])){self.name}(?:::<.*>)?\(", line) for line in body)

    def copied(self, text, name):
        """The function of its file's text once more, by another name, as it can stand behind the others of the file, and
        which of these lines it is told at."""
        lines = text.split("\n")
        before = ["", *(lines[at] for at in (*self.block, *self.uses))]
        told = [lines[at] for at in self.told]
        at = self.lines.start - self.told.start
        told[at] = told[at].replace(f"fn {self.name}", f"fn {name}", 1)
        return [*before, *told, *["}"] * bool(self.block)], range(len(before), len(before) + len(told))


def module_of(file):
    return "::".join(it for it in file[len("src/") : -len(".rt")].split("/") if it not in ("lib", "main", "mod"))


def folder_of(path):
    """Where the files of the function's proof stand."""
    return f"proofs/{path.replace('::', '/')}"


def block_of(lines, first, indent):
    """The lines of the head of the impl or the trait that a method stands in."""
    blocks = (at for at in range(first, -1, -1) if BLOCK.match(lines[at]) and not lines[at].startswith(indent))
    begin = next(blocks, first) if indent else first
    return range(begin, next((at + 1 for at in range(begin, first) if lines[at].endswith("{")), begin))


def uses_in(lines, block):
    """The lines of what the block whose head this is uses in contracts."""
    end = lines.index("}", block.stop) if block else 0
    return [at for at in range(block.stop, end) if lines[at].startswith("    ghost use ")]


def owner_of(head):
    """What stands for an impl in a path: its type, and behind it the trait, but for Drop, and the trait's types."""
    head = behind_impl(head)
    parameters = parameters_of(head)
    trait, _, owner = (GENERICS.sub("", head, count=1) if head.startswith("<") else head).rpartition(" for ")
    name, _, types = trait.partition("<")
    name = name.strip().rpartition("::")[2].replace("Drop", "")
    return flat(owner, parameters) + name + flat(types, parameters)


def behind_impl(head):
    return re.sub(r"^.*?\bimpl\b", "", re.split(r"\{|\bwhere\b", head)[0].replace("->", "")).strip()


def parameters_of(text):
    """The types and constants that the text, which may begin with them, is generic in."""
    generics = GENERICS.match(text)[0] if text.startswith("<") else "<>"
    return set(re.findall(r"[<,]\s*(?:const )?(\w+)", "<" + without_generics(generics[1:-1])))


def without_generics(text):
    while re.search(r"<[^<>]*>", text):
        text = re.sub(r"<[^<>]*>", "", text)
    return text


def flat(types, parameters):
    """The types in one word, without type parameters and lifetimes."""
    words = [it for it in re.findall(r"'?\w+|&mut\b|&|\[|\(\)", types) if it not in parameters and it[0] != "'"]
    return "".join(SIGNS.get(it, it[0].upper() + it[1:]) for it in words)


def functions_of(file, text, homes):
    lines = text.split("\n")
    return [Function(file, lines, at, homes) for at, line in enumerate(lines) if HEAD.match(line)]


@functools.cache
def sources_of(crate):
    """The crate's source files, by their paths in it."""
    top = os.path.join(TOP, "crates", crate)
    paths = [os.path.join(at, file) for at, _, files in os.walk(os.path.join(top, "src")) for file in files]
    return {os.path.relpath(path, top): read(path) for path in paths if path.endswith(".rt")}


@functools.cache
def bodies_of(crate):
    """The functions of the crate, but for those of traits."""
    sources = sources_of(crate)
    homes = homes_in(sources)
    every = [function for file, text in sources.items() for function in functions_of(file, text, homes)]
    return [function for function in every if not function.is_promised]


def without_bodies(text, functions):
    """The file's text, of as many lines, where nothing stands in the bodies of these functions of it."""
    lines = text.split("\n")
    for function in functions:
        for at in function.body:
            lines[at] = NO_BODY if at == function.body[0] else ""
    return "\n".join(lines)


def edited(text, file, pairs):
    """The file's text with the new texts of its pairs, each where its old one stands in the text as it is."""
    places = sorted(((text.index(old), len(old), new) for other, old, new in pairs if other == file), reverse=True)
    for at, length, new in places:
        text = text[:at] + new + text[at + length :]
    return text


def untried(text, function):
    """The file's text, of as many lines, where no tactic is tried at the function's goals."""
    lines, own = text.split("\n"), [at for at in function.told if TACTIC.match(text.split("\n")[at])]
    for at in own:
        lines[at] = TACTIC.sub(r"\1#[tactic(none)]", lines[at])
    if not own:
        at = function.lines.start
        lines[at] = re.sub(r"^( *)", r"\1#[tactic(none)] ", lines[at])
    return "\n".join(lines)


def constant_at(lines, at):
    """The name of the constant that the line is of, if it is of one."""
    begin = next((it for it in range(at, -1, -1) if not lines[it].startswith((" ", "]", "}", ")"))), at)
    found = CONSTANT.match(lines[begin])
    return found[1] if found else None


def users_of(constant, crate, homes):
    """The functions of the crate in which the constant stands, but for those of traits."""
    every = [it for file, text in sources_of(crate).items() for it in functions_of(file, text, homes)]
    return [it for it in every if constant and not it.is_promised and re.search(rf"\b{constant}\b", it.text)]


def homes_in(sources):
    """Of each type of the crate the module that defines it."""
    type_head = re.compile(r"^(?:pub(?:\([^)]*\))? )?(?:struct|enum) (\w+)", re.M)
    return {name: module_of(file) for file, text in sources.items() for name in type_head.findall(text)}


class Edit:
    """A wrong body: its texts, the goal or the row that it names, the functions and lines that it changes, and what it
    came to.

    Where several are of one function, all but one stand each in a copy of it, of a number from 1, behind the others of
    its file and with a copy of its proof: so they go into one check."""

    def __init__(self, crate, name, pairs, homes, goal=None, others=(), means=BY_TACTICS, row=None):
        self.crate, self.name, self.pairs, self.goal, self.others = crate, name, pairs, goal, set(others)
        self.means, self.row, self.is_sought, self.is_control = means, row, goal is None and row is None, False
        self.copy, self.first_line, self.misfit, self.is_beside_all = 0, None, None, False
        self.functions, self.places, self.beside, self.is_apart, self.is_alone = [], set(), {}, False, False
        self.forget()
        for file, old, new in pairs:
            text = sources_of(crate).get(file, "")
            if text.count(old) != 1:
                self.misfit = f"an old text stands in {file} {text.count(old)} times, and not once"
                return
            self.look(file, text, old, new, homes)

    def look(self, file, text, old, new, homes):
        """Notes where the old text stands: in a body, or in a constant, and then in which functions that stands, or in a
        comment, in whose place a new function may stand. What is in none may concern other functions, so it is tried
        apart; a constant may be spoken of by what other functions promise, so it is tried alone."""
        at = text[: text.index(old)].count("\n")
        inside = [function for function in functions_of(file, text, homes) if at in function.lines][-1:]
        is_comment = text.split("\n")[at].lstrip().startswith("//")
        users = [] if inside or is_comment else users_of(constant_at(text.split("\n"), at), self.crate, homes)
        self.is_apart |= not is_comment and not users and (not inside or at in inside[0].head)
        self.is_alone |= self.is_apart or bool(users)
        self.functions += [it for it in inside + users if it.path not in [other.path for other in self.functions]]
        self.places |= {(file, at), *((it.file, line) for it in inside + users for line in it.told)}
        self.beside |= {(file, at): (file, old, new)} if is_comment and not inside else {}

    def __str__(self):
        return f"{self.crate}/{self.name}: {self.verdict}: {self.said}"

    def fits_a_copy(self):
        """Whether a copy of its function may have it: one of no trait, that doesn't call itself, and all that is edited."""
        function = self.functions[0] if len(self.functions) == 1 and not self.is_alone else None
        return function is not None and not function.is_of_trait and not function.is_recursive() and \
            self.places == {*self.beside, *((function.file, line) for line in function.told)}

    def put_at(self, copy, lines):
        """Notes that it stands in this copy of its function, or in place, where it is 0, and at which lines of its file."""
        self.copy, self.first_line = copy, min(lines, default=None)
        self.places = {*self.beside, *((self.functions[0].file, line) for line in lines)}

    def pairs_in_place(self):
        """Which of its texts are put where the old ones stand: all, or those of comments, where a copy has the others."""
        return self.beside.values() if self.copy else self.pairs

    def put_back(self):
        """Notes that it stands in place."""
        if self.copy:
            self.put_at(0, self.functions[0].told)

    def forget(self):
        """Forgets what it came to, and what was seen of it."""
        self.put_back()
        self.verdict, self.kind, self.said, self.found, self.tries = None, None, "", None, 0
        # the goal that is tried alone, by what means, what was said of it, those that may be tried, and those that were and
        # tell nothing
        self.aim, self.by, self.refusal, self.hopes, self.passed = None, BY_ALL, None, [], set()
        # its proof files where they differ, the same with the answers that fit, those that don't, and goals left open
        self.pruned, self.fitting, self.gone, self.left_open = {}, {}, set(), set()

    @property
    def is_hard(self):
        """By what means its goal is tried, where not by the tactics alone."""
        return self.means

    @property
    def is_answered(self):
        """Whether what is tried stands in the place of an answer."""
        return self.by != BY_ALL

    def key(self):
        """Of what function it tries which goal, and by what means."""
        return self.functions[0].path, self.aim, self.by

    def is_of(self, path):
        """Whether a check has to look at this function."""
        wanted = self.asks()
        return path in wanted or not self.functions and any(path.startswith(f"{it}::" if it else "") for it in wanted)

    def asks(self):
        """What a check has to look at: the edited functions, or, where it is none's text, the modules."""
        which = COPY.format(self.copy) if self.copy else ""
        return [it.path + which for it in self.functions] or sorted({module_of(file) for file, _, _ in self.pairs})


def read(path):
    with open(path, encoding="utf-8") as file:
        return file.read()


def write(path, text):
    with open(path, "w", encoding="utf-8") as file:
        file.write(text)


def pairs_in(text):
    """The edit's pairs of texts, each with its file."""
    file, old, pairs = None, None, []
    for line in text.split("\n"):
        if line.startswith("file: "):
            file = line[len("file: ") :].strip()
        elif line.startswith("old: "):
            old = line[len("old: ") :]
        elif line.startswith("new:"):
            pairs.append((file, old, line[len("new:") :].removeprefix(" ")))
    return pairs


def goals_in(text):
    """The goal at which the edit is refused, where it names one, what isn't proved besides, by what means it is tried, and
    the row that shows it, where there is one."""
    found = {key: re.findall(rf"^{key}: (.*)", text, re.M) for key in ("goal", "also", "shows")}
    goal, *means = next(iter(found["goal"]), "").split(" ", 1)
    return goal or None, " ".join(found["also"]).split(), "".join(means), next(iter(found["shows"]), None)


def file_of(edit):
    return os.path.join(TOP, "crates", edit.crate, "wrong", edit.name + ".edit")


def controls_of(crate):
    """Bodies of the crate that mean the same as the right ones, each at a goal that a wrong one names."""
    controls = edits_of(crate, "same")
    for control in controls:
        control.is_control = True
    return controls


def edits_of(crate, part="wrong"):
    folder = os.path.join(TOP, "crates", crate, part)
    names = sorted(os.listdir(folder)) if os.path.isdir(folder) else []
    texts = {name.removesuffix(".edit"): read(os.path.join(folder, name)) for name in names if name.endswith(".edit")}
    homes = homes_in(sources_of(crate)) if texts else {}
    return [Edit(crate, name, pairs_in(text), homes, *goals_in(text)) for name, text in texts.items()]


def sound_of(edit, asked):
    """The function that the edit is of as it is, in a copy where that may be: what is tried at the goals asked for."""
    sound = copy.copy(edit)
    sound.pairs, sound.beside, sound.is_alone, sound.asked = [], {}, False, asked
    sound.pruned, sound.by = {}, BY_TACTICS
    sound.put_at(0, sound.functions[0].told)
    if sound.fits_a_copy():
        sound.put_at(SOUND, ())
    return sound


def fit_together(one, other):
    """Whether two edits go into one check: neither is tried alone, and they are of different functions. One may call the
    other: a proof rests on what a function promises and not on its body, and a caller of one that is refused has an open
    goal only where it is itself otherwise than it should be."""
    return not (one.is_alone or other.is_alone or one.places & other.places)


def round_of(edits):
    """Those of the edits that are tried in the next check: as many as fit together, first those that fewest others go
    with, so that there are few checks."""
    some = []
    for edit in sorted(edits, key=lambda one: -sum(not fit_together(one, other) for other in edits)):
        if all(fit_together(edit, other) for other in some):
            some.append(edit)
    return some


def put_into_copies(edits, others):
    """Has edits of one function put into copies of it, but for one where none of the others is of it."""
    count = collections.Counter({it.path for edit in others for it in edit.functions})
    for edit in filter(Edit.fits_a_copy, edits):
        path = edit.functions[0].path
        if count[path]:
            edit.put_at(count[path], ())
        count[path] += 1


def hints_of(function, crate):
    """The lemmas and the definitions that the function, or else the innermost module in which it stands and that has
    some, has for the prover's tactics, by their names in proofs: each the name's module, and the name in it."""
    sources, parts = sources_of(crate), function.file.removesuffix(".rt").split("/")
    files = [*("/".join(parts[:end]) + ".rt" for end in range(len(parts), 1, -1)), "src/lib.rt", "src/main.rt"]
    heads = [sources[function.file].split("\n")[at] for at in function.told]
    heads += [line for file in files for line in sources.get(file, "").split("\n") if line.startswith("#![tactic(auto")]
    head = next((line for line in heads if re.match(r" *#!?\[tactic\(auto", line)), "")
    found = {kind: re.findall(rf"\b{kind}\(([^)]*)\)", head) for kind in ("using", "unfolding")}
    return [[named(path.strip(), crate) for path in ",".join(paths).split(",") if path] for paths in found.values()]


def named(path, crate):
    """The module of a path's name in proofs, and the name in it."""
    first, *rest, name = path.split("::")
    return ".".join(["Rattle", crate if first == "crate" else first, *rest]), name
