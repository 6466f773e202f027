"""Finds the term that a predicate holds of what a rule makes, if predicates hold of its parts."""
import antt
from antt import applied, enclosed, factors, last, names_in, same, substituted
from rule_grammar import ByHand


class Step:
    """A lemma that a predicate holds of what a function makes, if some hold of its arguments."""

    def __init__(self, name, module, text):
        self.name, self.module, self.key, self.names, self.taken = name, module, None, [], []
        steps, given = antt.signature(text)
        if "(" not in given or any(step[:2] == ("binder", "{") for step in steps):
            return
        said = antt.term(given)
        if said[0] != "app" or said[2][-1][0] != "app":
            return
        made = said[2][-1]
        self.names = [part[1] for part in made[2]]
        for step in steps:
            if step[0] == "binder":
                self.taken += [(name, None) for name in step[2]]
                continue
            part = antt.term(step[1])
            of = next((name for name in self.names if name in names_in(part)), None)
            self.taken.append((of, applied(part[1], part[2][:-1])))
        self.key = (last(said[1][1]), last(made[1][1]))


class Holds:
    """What holds of values in a theory."""

    def __init__(self, theory, files):
        self.theory, self.names = theory, theory.names
        steps = [Step(name, file.name, text) for file in files if theory.form.holds
                 for name, public, text in file.signatures if public]
        known = theory.grammar.functions
        self.steps = {step.key: step for step in steps if step.key and step.key[1] in known}
        self.functions = {function for _, function in self.steps}

    def term(self, says, value, known):
        """A term that a predicate holds of a value; known is what holds of all parts as one."""
        if value[0] == "path":
            return self.part(says, value[1], known)
        says = self.theory.expanded(says)
        if says[0] == "lambda":
            return self.product(says[2], {says[1][0][1]: value}, known)
        head, arguments = (says[1], says[2]) if says[0] == "app" else (says, ())
        name = last(head[1])
        if value[0] == "made" and (name, value[2]) in self.steps:
            return self.step(self.steps[name, value[2]], value[3], known)
        clauses = self.theory.clauses.get(name, [])
        for patterns, body in clauses:
            outer, found = {p[1]: a for p, a in zip(patterns, arguments)}, {}
            if len(patterns) == len(arguments):
                return self.term(substituted(antt.term(body), outer), value, known)
            other = patterns is clauses[-1][0] and patterns[-1][0] == "name"
            if made_by(patterns[-1], value, found) or other:
                found.setdefault(patterns[-1][1], value)
                return self.product(substituted(antt.term(body), outer), found, known)
        raise ByHand

    def product(self, says, values, known):
        """A term for a product of predicates of parts of values."""
        if says[0] == "op":
            texts = [self.product(part, values, known) for part in factors(says)]
            return "(" + ", ".join(texts) + ")"
        if says[0] != "app" or says[1] == ("name", "Unit"):
            return self.names.name("tt")
        value = self.field(says[2][-1], values)
        return self.term(applied(says[1], says[2][:-1]), value, known)

    def field(self, of, values):
        """The value of a name, or of a field or a component of one."""
        if of[0] != "name":
            return self.theory.values.value(of, values)
        name, *fields = of[1].split(".")
        value = values[name]
        for field in fields:
            if value[0] != "path":
                value = value[1][int(field)] if value[0] == "tuple" else dict(value[1])[field]
            elif field.isdigit():
                value = ("path", f"{value[1]}.{field}")
        return value

    def part(self, says, path, known):
        """A term for a part, of which more may be known than is asked."""
        for index in path.split(".")[1:]:
            known = known and self.theory.expanded(known)
            parts = factors(known[2]) if known and known[0] == "lambda" else []
            of = parts[int(index)] if int(index) < len(parts) else ("name", "")
            known = applied(of[1], of[2][:-1]) if of[0] == "app" else None
        known = known and self.theory.expanded(known)
        parts = factors(known[2]) if known and known[0] == "lambda" else []
        wanted = self.theory.expanded(says)
        for place, part in enumerate(parts if len(parts) > 1 else []):
            if part[0] == "app" and same(self.theory.expanded(part[1]), wanted):
                return f"{path}.{place}"
        return path

    def step(self, step, arguments, known):
        """A lemma of what a function makes, at its arguments and what holds of them."""
        self.names.cite(step.module, step.name)
        values = dict(zip(step.names, arguments))
        texts = [self.term(says, values[of], known) if says
                 else self.names.value(itself(values[of])) for of, says in step.taken]
        return " ".join([step.name, *(enclosed(text) for text in texts)])


def itself(value):
    """A part of the rule's value `a`, in place of what holds of it in `h`."""
    return ("path", "a" + value[1][1:]) if value[0] == "path" else value


def made_by(pattern, value, found):
    """Whether a value is made by the constructor of a pattern; adds its parts."""
    if pattern[0] == value[0] == "op":
        found.update({p[1]: v for p, v in zip(pattern[2:], value[2:])})
        return True
    head, parts = (pattern[1], pattern[2]) if pattern[0] == "app" else (pattern, ())
    if value[0] != "made" or head[0] != "name" or last(head[1]) != last(value[2]):
        return False
    found.update({p[1]: v for p, v in zip(parts, value[3])})
    return True
