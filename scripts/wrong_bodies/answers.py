"""The answers in a function's proof files as texts, and what stands in their place where some goals are tried alone."""

import re

DEFINED = re.compile(r"(?:abbrev )?(?:pub )?([^\s():{}]+) : ")
HOLE_OF_GOAL = "\npub {0} : goal.{0}\n{0} = ?\n"
# the two tactics by which the prover tries a goal first, and all that it tries of most sound goals; and what is tried with
# lemmas, or facts, that an answer written by hand names
USES_OF_TACTICS = "use Rattle.std.proofs.Common as common\nuse Rattle.std.proofs.lemmas.Grind as grinding\n"
TACTICS = "search common.rules, grind (common.arith, grinding.common_steps) steps 2000000"
WITH_NAMED = "search (common.rules, {0}), grind (common.arith, grinding.common_steps, {0})"
ANSWER = "\npub {0} : goal.{0}\n{2}{0} {1} = first_of ({3})\n"
# modules that have no lemma that isn't tried already
OF_TACTICS = ("Rattle.std.proofs.Common", "Rattle.std.proofs.lemmas.Grind", ".Goals")
IMPORT = re.compile(r"^use ([\w.]+)(?:\.\{(.*?)\}| as (\w+))$", re.M | re.S)


def holes_at(goals, module):
    """Answers that leave these goals open, of the module that has the goals."""
    return f"use {module} as goal\n" + "".join(HOLE_OF_GOAL.format(name) for name in sorted(goals))


class Hints:
    """What the tactics are given for a goal: lemmas, each by itself, or others, all together, and definitions that they
    look into, each a module and a name in it."""

    def __init__(self, lemmas=(), together=(), definitions=()):
        self.lemmas, self.together = [tuple(it) for it in lemmas], [tuple(it) for it in together]
        self.definitions = list(dict.fromkeys(map(tuple, definitions)))

    def modules(self):
        return [module for module, _ in [*self.lemmas, *self.together, *self.definitions]]


def by_tactics(text, hints, generics):
    """The answers, and behind them the tactics as those of goals, each with its hints, over all that the function is
    generic in."""
    modules = list(dict.fromkeys(module for hint in hints.values() for module in hint.modules()))
    uses = "".join(f"use {module} as hint{at}\n" for at, module in enumerate(modules))

    def told(names):
        return [f"hint{modules.index(module)}.{name}" for module, name in names]

    for goal, hint in hints.items():
        tries = [WITH_NAMED.format(", ".join(told(hint.together))) if hint.together else TACTICS]
        tries += [f"grind (common.arith, {lemma})" for lemma in told(hint.lemmas)]
        unfolded = f"unfolding {' '.join(told(hint.definitions))}\n" if hint.definitions else ""
        text += ANSWER.format(goal, generics, unfolded, ", ".join(tries))
    return USES_OF_TACTICS + uses + text


def by_facts(text, goals):
    """The answers of these goals, each with the facts that it is made of handed to the tactics in its place, and what
    they need besides; or None where one isn't seen to be made of facts."""
    parts, left = dict(parts_of(text)), set(goals)
    while more := {name for name in parts for it in left if name and name in words_of(parts[it])} - left:
        left |= more
    found = [answer_by_facts(goal, parts[goal]) for goal in goals]
    return None if None in found else USES_OF_TACTICS + parts[""] + "".join(
        body for name, body in parts.items() if name in left - {*goals}) + "".join(found)


def answer_by_facts(goal, text):
    """The goal's answer with tactics in the place of its end, which are given the facts that the end is made of."""
    found = re.search(rf"^(.*?){re.escape(goal)}((?: [^\s=]+)*) =\s(.*)$", text[text.index("\n") + 1 :], re.S)
    if not found:
        return None
    head, parameters, body = found.groups()
    ends = [at for at, word in top_words(body) if word == "in"]
    begin = ends[-1] + len("in") if ends else 0
    bound = re.match(r"\s*λ [^.]*\.", body[begin:])
    begin += bound.end() if bound else 0
    facts = facts_in(body[begin:])
    if facts is None:
        return text
    begun = steps_by_facts(body[:begin])
    return f"\npub {goal} : goal.{goal}\n{head}{goal}{parameters} =\n    {begun} {tactics_over(facts)}\n" if facts else None


def tactics_over(facts):
    return f"first_of ({WITH_NAMED.format(', '.join(facts))})"


def steps_by_facts(text):
    """The steps of an answer, `let x : T = e in`, with tactics that are given the facts that e is made of in the place of
    each e whose T is an equation or an order."""
    words, left, begin = top_words(text), "", 0
    ends = [at for at, (_, word) in enumerate(words) if word == "in"]
    for first, end in zip([0, *(at + 1 for at in ends)], ends):
        step = [word for _, word in words[first:end]]
        is_told = step[:1] == ["let"] and step.count("let") == 1 and step[2:3] == [":"] and step.count("=") == 1
        if is_told and {"≡", "≤", "<"} & {*step[: step.index("=")]}:
            place = words[first + step.index("=")][0] + 1
            facts = facts_in(text[place : words[end][0]])
            if facts:
                left, begin = f"{left}{text[begin:place]} {tactics_over(facts)} ", words[end][0]
    return left + text[begin:]


def top_words(text):
    """The words of a term that stand in no brackets, each with its place; what stands in brackets counts as one."""
    found, depth, begin = [], 0, None
    for at, sign in enumerate(text + " "):
        if depth == 0 and sign.isspace():
            found += [(begin, text[begin:at])] if begin is not None else []
            begin = None
            continue
        begin = at if begin is None else begin
        depth += (sign in "([{") - (sign in ")]}")
    return found


def split_at(text, sign):
    """The parts of a text between those of these signs that stand in no brackets."""
    parts, depth = [""], 0
    for it in text:
        depth += (it in "([{") - (it in ")]}")
        parts = [*parts, ""] if it == sign and not depth else [*parts[:-1], parts[-1] + it]
    return [part.strip() for part in parts if part.strip()]


def facts_in(term):
    """The facts that a term is made of, or None where it is a tactic itself."""
    steps = split_at(term, "∙")
    if len(steps) > 1:  # equations one after another
        return [fact for step in steps for fact in facts_in(step) or ()]
    words = [word for _, word in top_words(term)]
    if len(words) == 1 and words[0].startswith("(") and words[0].endswith(")"):
        inside = split_at(words[0][1:-1], ",")
        found = [facts_in(it) for it in inside]
        return [fact for facts in found for fact in facts or ()]
    if not words or words[0] in ("grind", "omega", "search", "cc"):
        return None
    if words[0] == "rw" and len(words) > 2:
        equations = split_at(words[1][1:-1], ",") if words[1].startswith("(") else [words[1]]
        rest = words[3:] if words[2] == "at" else words[2:]
        return [it.removeprefix("←").strip() for it in equations] + (facts_in(" ".join(rest)) or [])
    if words[0] == "subst" and len(words) > 3:
        return [words[2], *(facts_in(" ".join(words[3:])) or [])]
    if words[0] == "record":
        fields = [it.partition("=")[2] for it in split_at(words[1][1:-1], ";")]
        return [fact for field in fields for fact in facts_in(field) or ()]
    return [" ".join(term.split())]


def named_in(text, goal):
    """The lemmas that the goal's answer names, and the definitions that it looks into, and so of what it needs besides in
    its file. An answer fits one body alone, and a lemma none."""
    parts, needed = dict(parts_of(text)), {goal}
    while more := {name for name in parts for it in needed if name and name in words_of(parts[it])} - needed:
        needed |= more
    body, found = "".join(parts[name] for name in sorted(needed)), {}
    for module, names, short in IMPORT.findall(parts[""]):
        own = re.findall(rf"(?<![\w.]){short}\.([\w\-']+)", body) if short else [it.strip() for it in names.split(",")]
        found |= {f"{short}.{name}" if short else name: (module, name) for name in own if not module.endswith(OF_TACTICS)}
    looked_into = {word for line in re.findall(r"^unfolding (.*)", body, re.M) for word in line.split()}
    words = set(re.findall(r"[^\s(){},;←]+", body)) - looked_into
    lemmas = [found[word] for word in sorted(words & found.keys()) if ".proofs." in found[word][0]]
    return lemmas, [found[word] for word in sorted(looked_into & found.keys())]


def answered_in(text):
    """The goals that have an answer."""
    return {name for name, body in parts_of(text) if f"{name} : goal.{name}" in body}


def defined_in(line):
    """What a line of an answers' file begins to define, as a match, if it does."""
    return None if line.startswith(("use ", "--")) else DEFINED.match(line)


def parts_of(text):
    """The definitions in the text of an answers' file, each with its name, and before them its imports."""
    parts = [["", ""]]
    for line in text.split("\n"):
        found = defined_in(line)
        if found:
            parts.append([found[1], ""])
        parts[-1][1] += line + "\n"
    return parts


def words_of(text):
    return set(re.findall(r"[^\s(){}.,;]+", text))


def without_answers(text, lines):
    """The file without the definitions that stand at these lines and those that name one of these, and their names.
    Where an import is refused, all are taken out."""
    parts, at, gone = parts_of(text), 0, set()
    for name, body in parts:
        count = body.count("\n")
        gone |= {name} if any(at <= line < at + count for line in lines) else set()
        at += count
    if "" in gone:
        return "", {name for name, _ in parts}
    while more := {name for name, body in parts if name not in gone and gone & words_of(body)} - {""}:
        gone |= more
    return "".join(body for name, body in parts if name not in gone), gone
