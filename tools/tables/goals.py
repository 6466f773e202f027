"""What the prover calls the goals of a function and what is known in them, and the proofs of goals.

No other tool spells these names. A place is a part of a body: an arm, or a side of a test.
"""
from collections import Counter
from dataclasses import dataclass

# the pattern that fits where no other one does
DEFAULT = "in_default"


def method(kind, trait, function):
    """A function of an impl of a trait."""
    return f"{kind}{trait}::{function}"


def returns(function="", *places):
    """The goal of what a function returns, or of what it returns in a place."""
    return "-".join(filter(None, [function, "returns", *places]))


def clause(name):
    """The part of a goal that is a clause with a name."""
    return f"clause-{name}"


def preserved(function, loop):
    """The goal that a turn of a loop keeps its invariant."""
    return f"{function}-{loop}-preserved"


def invariant(function, loop):
    """The invariant of a loop."""
    return f"invariant-{function}-{loop}"


def unvisited(function, loop):
    """That the items to which a loop has not come are as before."""
    return f"unvisited-{function}-{loop}"


def arm(variant):
    """The arm of a variant."""
    return f"in-{variant}"


def matches(variant):
    """Where `matches!` holds, in the arm of a variant."""
    return f"in-{variant}-matches"


def differs(number):
    """Where the `matches!` of a number does not hold."""
    return numbered(f"{DEFAULT}-matches", number)


def ok(call):
    """Where a call returns `Ok`."""
    return f"in_ok-{call}"


def then(test):
    """Where a test holds."""
    return f"then-{test}"


def unless(test):
    """Where a test does not hold."""
    return f"else-{test}"


def at(name, place):
    """A call, or a branch of a function, in a place."""
    return f"{name}-{place}"


def numbered(name, number):
    """The name of one of several calls or tests of a name, by its number."""
    return name if number == 1 else f"{name}-{number}"


def in_order(names):
    """The names of calls, of which some are of the same function, in their order."""
    counts = Counter()
    for name in names:
        counts[name] += 1
        yield numbered(name, counts[name])


def proof(goal, lines, taken="t c", front=""):
    """The proof of a goal, from what is known in it; in a cycle also from the types of that."""
    return f"pub {goal} : goal.{goal}\n{front}{goal} {taken} ={lines}\n"


@dataclass(frozen=True)
class Known:
    """What is known in a goal, or of a call, an arm, a test or a loop in it."""

    path: str

    def __str__(self):
        return self.path

    def of(self, name):
        """What is known of a part with a name."""
        return Known(f"{self.path}.{name}")

    def outcome(self, call, name="outcome"):
        """What is known of a call whose result has a name."""
        return self.of(f"{call}-{name}")

    def ok(self, call):
        """What is known of a call that returns `Ok`."""
        return self.of(ok(call))

    def arm(self, variant):
        """What is known in the arm of a variant."""
        return self.of(arm(variant))

    def test(self, name):
        """What is known of a test."""
        return self.of(f"if-{name}")

    def index(self, array, place):
        """What is known of an item of an array."""
        return self.of(f"index-{array}-{place}")

    def item(self, name):
        """What is known of the item in a turn of a loop over items of a name."""
        return self.of(f"{name}-item")

    def ended(self, loop):
        """That a loop has no further turn."""
        return self.of(f"{loop}-test.false")

    def ensures(self, name=""):
        """What a call ensures, or the clause of a name in that."""
        return self.of(f"ensures.{name}".rstrip("."))

    def new(self, argument):
        """What an argument of a call is after it."""
        return self.of(f"new.{argument}")

    def given(self, parameter):
        """What a parameter is when the function begins."""
        return self.of(f"args.{parameter}.now")


# what is known in a goal, and in a branch of it
c, w = Known("c"), Known("w")
