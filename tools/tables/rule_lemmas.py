"""Finds the term of a rule: the lemma whose rule is most like it, at the terms of its parts."""
from pathlib import Path

import antt
from antt import bound, enclosed, match, names_in, same, substituted
from rule_grammar import ByHand, Values, has_path
from rule_holds import Holds
from rule_names import Names


class Lemma:
    """A lemma: what it takes, and the parts of what it says."""

    def __init__(self, name, module, text, form, expanded):
        self.name, self.module = name, module
        self.steps, given = antt.signature(text)
        self.variables = {n for step in self.steps if step[0] == "binder" for n in step[2]}
        said = expanded(antt.term(given))
        self.says = said[1][1] if said[0] == "app" else None
        if self.says in form.places:
            self.parts = list(said[2])
            self.rule = self.parts.pop(form.places[self.says])
            self.weight = antt.size(self.rule, self.variables)

    def open(self, term):
        """Whether a term has variables of the lemma."""
        return bool(names_in(term) & self.variables)


class Theory:
    """The lemmas that people write in a theory, and the terms that they make."""

    def __init__(self, form, grammar):
        self.form, self.grammar = form, grammar
        files, others = files_of(form.files), files_of(form.others)
        self.names = Names(grammar, files + others, form.span)
        self.clauses = {n: c for file in others + files for n, c in file.clauses.items()}
        lemmas = [Lemma(name, file.name, text, form, self.expanded) for file in files
                  for name, public, text in file.signatures if public and form.mentions(text)]
        lemmas = [lemma for lemma in lemmas if lemma.says in form.places]
        lemmas = [lemma for lemma in lemmas if lemma.weight or not lemma.open(lemma.parts[-1])]
        self.lemmas = sorted(lemmas, key=lambda lemma: (-lemma.weight, len(lemma.steps)))
        self.holds = Holds(self, files)
        self.values = Values(grammar, self.views(), self.holds.functions)

    def views(self):
        """The functions of parts whose results, and not the parts, are what lemmas speak of."""
        parts = [part for lemma in self.lemmas for part in lemma.parts if part[0] == "lambda"]
        for symbol in self.grammar.rules:
            said = antt.term(antt.signature(self.form.lemma(symbol)[1])[1])
            parts.append(self.expanded(said[2][-1]))
        return {name for part in parts for name in self.grammar.functions & names_in(part)}

    def expanded(self, term):
        """A relation or a function of the theory by its definition."""
        head, arguments = (term[1], term[2]) if term[0] == "app" else (term, ())
        clauses = self.clauses.get(head[1], []) if head[0] == "name" else []
        chosen = [clause for clause in clauses
                  if all(same(p, a) for p, a in zip(clause[0], arguments))] or clauses[-1:]
        if len(chosen) != 1 or any(pattern[0] != "name" for pattern in chosen[0][0]):
            return antt.shortened(term)
        patterns, body = chosen[0]
        made = substituted(antt.term(body), {p[1]: a for p, a in zip(patterns, arguments)})
        rest = tuple(patterns[len(arguments):])
        made = antt.shortened(("lambda", rest, made)) if rest else made
        return made if made[0] == "lambda" else self.expanded(made)

    def rule(self, says, rule):
        """A term for a rule, of which a signature says something."""
        self.names.cite_all(says)
        self.names.local = set()
        said = self.expanded(antt.term(antt.signature(says)[1]))
        parts = list(said[2])
        parts.pop(self.form.places[said[1][1]])
        found = self.term(said[1][1], rule, self.compared(parts, ()))
        return found and found[0]

    def compared(self, parts, variables):
        """The parts of what is said that choose a lemma, where they are known."""
        first = len(parts) - self.form.compared
        return [None if place < first or names_in(part) & set(variables) else part
                for place, part in enumerate(parts)]

    def term(self, says, rule, expected):
        """A term for a rule, and the parts of what it says; a lemma of the very rule decides."""
        decided = False
        for lemma in self.lemmas:
            found = dict(self.form.known)
            if lemma.says != says or not match(lemma.rule, rule, lemma.variables, found):
                continue
            if decided and lemma.open(lemma.rule):
                return None
            decided = not lemma.open(lemma.rule)
            if self.typed(lemma, found) and self.agrees(lemma, found, expected):
                used = self.used(lemma, found)
                if used:
                    return used
        unfolded = None if decided else self.grammar.unfolded(rule)
        return unfolded and self.term(says, unfolded, expected)

    def typed(self, lemma, found):
        """Whether the parts of a rule may have the types of a lemma's variables."""
        for step in lemma.steps:
            if step[0] == "binder" and step[3][0] == "Rule" and not set(step[3]) & lemma.variables:
                known = [self.grammar.type_of(found[name]) for name in step[2] if name in found]
                if any(kind and kind != step[3][1:] for kind in known):
                    return False
        return True

    def agrees(self, lemma, found, expected):
        """Whether a lemma says what is expected, as far as that is known."""
        if lemma.weight == 0 and expected[-1] is None:
            return False
        for place, (part, wanted) in enumerate(zip(lemma.parts, expected)):
            if wanted is None:
                continue
            if part[1] in lemma.variables and part[1] not in found:
                found[part[1]] = wanted
                continue
            tried, given = dict(found), self.expanded(substituted(part, found))
            if match(given, self.expanded(wanted), lemma.variables, tried):
                found.update(tried)
            elif not lemma.open(given) or place != self.form.writers.get(lemma.says):
                return False
        return True

    def used(self, lemma, found):
        """A lemma with all that it takes, and what it says then; none if a part has no term."""
        taken = []
        try:
            for step in lemma.steps:
                taken.append(step if step[0] == "binder" else self.premise(lemma, step[1], found))
        except ByHand:
            return None
        explicit = {n for step in lemma.steps if step[:2] == ("binder", "(") for n in step[2]}
        if None in taken or not explicit <= set(found):
            return None
        texts = [text for step in taken for text in self.written(lemma, step, found)]
        parts = [substituted(part, found) for part in lemma.parts]
        self.names.cite(lemma.module, lemma.name)
        known = [None if lemma.open(part) else part for part in parts]
        return " ".join([lemma.name, *texts]), known

    def written(self, lemma, step, found):
        """What is written for a step: a term, or what a binder needs."""
        if isinstance(step, str):
            return [enclosed(step)]
        if step[1] == "(":
            of_values = step[3][0] in lemma.variables and "Type" not in step[3]
            return [enclosed(self.names.term(found[name], of_values)) for name in step[2]]
        hints = self.form.hints.get(lemma.name, ())
        if "b" in hints and found.get("e") == ("name", "true"):
            found["b"] = found["e"]
        wanted = [name for name in step[2]
                  if name in hints and name in found and plain(found[name])]
        return [f"{{{name} = {self.names.term(found[name])}}}" for name in wanted]

    def premise(self, lemma, tokens, found):
        """A term for a premise; adds what it says to what is found."""
        said = self.expanded(antt.term(tokens)) if tokens[0] in self.form.words else None
        if said is None or said[1][1] not in self.form.places:
            return self.other_premise(lemma, tokens, found)
        parts = list(said[2])
        rule = substituted(parts.pop(self.form.places[said[1][1]]), found)
        expected = self.compared([substituted(part, found) for part in parts], lemma.variables)
        term = self.term(said[1][1], rule, expected)
        for part, known in zip(parts, term[1] if term else ()):
            tried = dict(found)
            if known is not None and match(part, self.expanded(known), lemma.variables, tried):
                found.update(tried)
        return term and term[0]

    def other_premise(self, lemma, tokens, found):
        """A term for a premise that is of no rule."""
        if tokens == [self.form.given[0]]:
            return self.names.name(self.form.given[1])
        if tokens[0] == "(" and antt.end_of(tokens) == len(tokens) - 1:
            tokens = tokens[1:-1]
        *taken, given = antt.split(tokens, "→")
        names, values, fresh = [], {}, ["h", "k"]
        for part in taken:
            groups = antt.groups(part)
            for _, group, kind in groups:
                names += group
                values.update({name: ("span",) for name in group if kind == ["Span"]})
            if not groups:
                names.append(fresh.pop(0))
                values[antt.term(part)[2][0][1]] = ("path", names[-1])
        return bound(names, self.shown(antt.term(given), lemma, values, found))

    def shown(self, given, lemma, values, found):
        """A term for what a premise says of values."""
        if given[0] == "app" and given[1][1] in self.form.premises:
            return self.form.premises[given[1][1]]
        if given[0] == "op" and given[1] == "≡":
            return self.names.name("refl")
        if given[0] != "app" or given[1][1] not in lemma.variables:
            return self.names.name("tt")
        value = self.values.value(substituted(given[2][0], found), values)
        if len(given[2]) > 1:
            return self.alike(value)
        if given[1][1] not in found:
            raise ByHand
        return self.holds.term(found[given[1][1]], value, found.get("P"))

    def alike(self, value):
        """A term that a value is like another, where its parts are."""
        if value[0] == "path":
            return value[1]
        if not has_path(value):
            return self.names.name("refl")
        if self.values.chooses(value):
            raise ByHand
        if value[0] == "tuple":
            texts = [self.alike(part) for part in value[1]]
            texts = [enclosed(text) if text.startswith("λ") else text for text in texts]
            return "(" + ", ".join(texts) + ")"
        return bound(["i"], self.names.value(value, " i"))


def files_of(patterns):
    """The files that people write at some places."""
    paths = [path for pattern in patterns for path in sorted(Path("crates").glob(pattern))]
    return [antt.Module(path) for path in paths if path.stem != "RuleTerms"]


def plain(term):
    """Whether no λ is applied in a term."""
    return not isinstance(term, tuple) or (
        not (term[:1] == ("app",) and term[1][0] == "lambda") and all(map(plain, term)))
