"""The names of a module by its tokens, written a second time: what each is, and what each use may
refer to. `tools/names_test` compares it with the library."""
import itertools
import re
from typing import NamedTuple

import texts
from trivia import comment_end, is_blank

# what the names in the arguments of an attribute are; those of any other are not known
ARGUMENTS = dict.fromkeys("align binding blend_src group id location size workgroup_size type"
                          .split(), "use") | dict.fromkeys("builtin diagnostic interpolate".split(),
                                                           "word")
CONDITIONS = ("if", "elif", "else")
VALUES = ("const", "let", "override", "var")
OPENING, CLOSING = ("(", "[", "{", "‹"), (")", "]", "}", "›")


class Token(NamedTuple):
    """A token with its byte offset; ‹ and › are the brackets of template lists."""
    text: str
    place: int

    @property
    def is_name(self):
        is_word = texts.WORD.fullmatch(self.text) is not None
        return self.text == "_" or (is_word and self.text not in texts.KEYWORDS)


class Known(NamedTuple):
    """A name and what it is."""
    what: str
    token: Token


class Entry(NamedTuple):
    """What comes into scope: a declaration, or an alternative that declares nothing."""
    branch: str
    token: Token


def tokens_of(text):
    """The tokens of a text (WGSL, "Template Lists")."""
    places = list(itertools.accumulate((len(c.encode()) for c in text), initial=0))
    found, opened, at, depth = [], [], 0, 0
    while at < len(text):
        if is_blank(text[at]):
            at += 1
            continue
        if text.startswith(("//", "/*"), at):
            at = comment_end(text, at)
            continue
        whole = texts.TOKEN.match(text, at).group()
        if whole[0] == ">" and opened and opened[-1][1] == depth:
            start = opened.pop()[0]
            found[start] = found[start]._replace(text="‹")
            found.append(Token("›", places[at]))
            at += 1
            continue
        if whole == "<" and found and texts.WORD.fullmatch(found[-1].text):
            opened.append((len(found), depth))
        elif whole in ("(", "["):
            depth += 1
        elif whole in (")", "]"):
            opened = [it for it in opened if it[1] < depth]
            depth = max(0, depth - 1)
        elif whole in ("&&", "||"):
            opened = [it for it in opened if it[1] < depth]
        elif whole in (";", "{", ":") or re.fullmatch(r"=|[-+*/%&|^]=|(<<|>>)=", whole):
            opened, depth = [], 0
        found.append(Token(whole, places[at]))
        at += len(whole)
    return found


class Reader:
    """Reads the tokens of a module: what comes into scope in the whole module, then in the order of
    the text uses, what comes into scope in functions, and where scopes start and end."""

    def __init__(self, tokens):
        self.tokens = tokens
        self.at = 0
        self.names = []
        self.module = []
        self.events = []

    def read(self):
        while self.at < len(self.tokens):
            self.declaration()
        return self.module + self.events

    # ---- tokens
    def is_at(self, *words):
        return self.at < len(self.tokens) and self.tokens[self.at].text in words

    def take(self):
        self.at += 1
        return self.tokens[self.at - 1]

    def name(self, what):
        """Takes a name that is not a use."""
        self.names.append(Known(what, self.take()))
        return self.names[-1].token

    def use(self, what):
        self.name(what)
        if what != "word":
            self.events.append(self.names[-1])

    def until(self, *ends, what="use"):
        """Passes over an expression, a type or what is like one, up to a token at its depth."""
        depth = 0
        while depth or not self.is_at(*ends):
            depth += self.is_at(*OPENING) - self.is_at(*CLOSING)
            if self.is_at(".") and what != "word":
                self.take()
                self.name("component")
            elif self.tokens[self.at].is_name:
                self.use(what)
            else:
                self.take()

    # ---- attributes, types, values
    def attributes(self):
        """The condition that attributes state."""
        branch = None
        while self.is_at("@"):
            self.take()
            word = self.name("word").text
            if word in CONDITIONS:
                branch = "several" if branch else word
            if self.is_at("("):
                self.take()
                self.until(")", what=ARGUMENTS.get(word, "unknown"))
                self.take()
        return branch

    def template(self):
        if self.is_at("‹"):
            self.take()
            self.until("›")
            self.take()

    def type(self):
        self.use("use")
        self.template()

    def enter(self, branch, token, events=None):
        if branch or token:
            (self.events if events is None else events).append(Entry(branch, token))

    def value(self, branch, events=None):
        """A declaration of a value, after its attributes and up to its end."""
        what = self.take().text
        self.template()
        token = self.name(what)
        self.until(";", ")")
        self.enter(branch, token, events)

    # ---- statements
    def block(self):
        self.attributes()
        self.take()
        self.events.append("start")
        while not self.is_at("}"):
            self.statement()
        self.take()
        self.events.append("end")

    def statement(self):
        branch = self.attributes()
        if self.is_at(*VALUES):
            self.value(branch)
            self.take()
            return
        if self.is_at("continuing", "{"):
            word = self.tokens[self.at].text
            if word == "continuing":
                self.take()
            self.block()
            self.enter(branch if word == "{" else None, None)
            return
        word = self.tokens[self.at].text
        if word == "if":
            self.chain()
        elif word == "switch":
            self.switch()
        elif word == "for":
            self.repeat()
        elif word in ("loop", "while"):
            self.take()
            self.until("@", "{")
            self.block()
        else:
            if word == "break" and self.tokens[self.at + 1].text == "if":
                branch = None
            self.until(";")
            self.take()
        self.enter(branch, None)

    def chain(self):
        while True:
            self.until("@", "{")
            self.block()
            if not self.is_at("else"):
                return
            self.take()

    def switch(self):
        self.until("@", "{")
        self.attributes()
        self.take()
        while not self.is_at("}"):
            self.attributes()
            self.until("@", "{", ":")
            if self.is_at(":"):
                self.take()
            self.block()
        self.take()

    def repeat(self):
        self.take()
        self.take()
        self.events.append("start")
        for end in (";", ";", ")"):
            branch = self.attributes()
            if self.is_at(*VALUES):
                self.value(branch)
            else:
                self.until(end)
                self.enter(branch, None)
            self.take()
        self.block()
        self.events.append("end")

    # ---- declarations
    def declaration(self):
        branch = self.attributes()
        if self.is_at("enable", "requires", "diagnostic"):
            self.until(";", what="word")
            self.take()
        elif self.is_at(*VALUES):
            self.value(branch, self.module)
            self.take()
        elif self.is_at("alias", "struct", "fn"):
            what = self.take().text
            token = self.name(what)
            {"alias": self.alias, "struct": self.members, "fn": self.function}[what]()
            self.enter(branch, token, self.module)
        else:
            self.until(";")
            self.take()
            self.enter(branch, None, self.module)

    def alias(self):
        self.until(";")
        self.take()

    def members(self):
        self.take()
        while not self.is_at("}"):
            self.attributes()
            self.name("member")
            self.take()
            self.type()
            if self.is_at(","):
                self.take()
        self.take()

    def function(self):
        self.take()
        parameters = []
        while not self.is_at(")"):
            branch = self.attributes()
            parameters.append(Entry(branch, self.name("parameter")))
            self.take()
            self.type()
            if self.is_at(","):
                self.take()
        self.take()
        if self.is_at("->"):
            self.take()
            self.attributes()
            self.type()
        self.events += ["start", *parameters]
        self.block()
        self.events.append("end")


def may_refer_to(in_scope, name):
    """The declarations that a use of a name may refer to, the nearest first, and `out:` with the
    name if none of them has to be there."""
    found, in_each = [], False
    for branch, token in reversed(in_scope):
        declares = token is not None and token.text == name
        if not declares:
            in_each = False
            continue
        found.append(token)
        if branch is None or (branch == "if" and in_each):
            return found
        in_each = {"if": False, "elif": in_each, "else": True, "several": False}[branch]
    return [*found, "out:" + name]


def referents_of(events):
    """What each use may refer to, in the order of the text."""
    in_scope, starts, found = [], [], []
    for event in events:
        if event == "start":
            starts.append(len(in_scope))
        elif event == "end":
            del in_scope[starts.pop():]
        elif isinstance(event, Entry):
            in_scope.append(event)
        elif event.what == "unknown":
            found.append(["out:" + event.token.text])
        else:
            found.append(may_refer_to(in_scope, event.token.text))
    return found


def declared(events):
    """The declarations, in the order in which they are counted: those of the module first."""
    return [event.token for event in events if isinstance(event, Entry) and event.token]
