"""Texts made by chance: modules by the grammar of WGSL, mutants of these and of shaders,
tokens in any order, and plain bytes. Each is made by a source of chance, so the same one makes
it again."""
import re
import sys
from pathlib import Path
from random import Random
from typing import NamedTuple

sys.path.append(str(Path(__file__).resolve().parent / "tables"))
import node_table
import token_table

SHADERS = sorted((Path(__file__).resolve().parent.parent / "examples").glob("*.wgsl"))


class Bracket(str):
    """A bracket of a template list; a `<` or `>` that is not one is an operator."""


OPEN, CLOSE = Bracket("<"), Bracket(">")
TOKENS, NODES = token_table.Table(), node_table.Table()
KEYWORDS = [token.text for token in TOKENS.keywords]
RESERVED = TOKENS.reserved
SYMBOLS = """& && -> @ / ! [ ] { } : , = == != > >= >> < <= << % - -- . + ++ | || ( ) ; * ~ _ ^
    += -= *= /= %= &= |= ^= >>= <<=""".split()
ATTRIBUTES = NODES.attribute_words()
STRAYS = [*"""# $ ' " ` ? \\ € 0x 1__ 08 0x1.p 4294967296u 99999999999999999999""".split(), "\0",
          "\ufeff"]
BLANKS = [" "] * 6 + ["\n", "\n\n    ", "\t", "\r\n", "\u3000", "\u200e", "\u2028", "/**/",
                      "/* a */", "/*/* b */*/", "// c\n"]

# the words of a grammar's terminals, and the rules, whose first way is taken where enough was made;
# `?` is none or one, `*` none or more, `+` one or more, and `,` one or more with commas between
WORDS = {name: words.split() for name, words in {
    "Name": """a b i x y s t main color f32 vec2 vec4f mat4x4 größe π _a __x x7 e5 p1 uf private
        read storage position perspective""",
    "Literal": """true false 0 1 42 7u 0i 9223372036854775807 2147483647i 4294967295u 0x7fffFFFF
        0X1fu 0x0i 0. 1.5 01.5e+1 .5 .025E-07f 5f 00h 1e4 0.5h 0x1.8 0x.c 0x1f.p+02 0x.8p1f
        0XAP-3h""",
    "Product": "* / %", "Sum": "+ - --", "Shifted": "<< >>", "Compared": "< < > <= >= == !=",
    "Prefix": "- ! ~ * &",
    "Assigned": "= += -= *= /= %= &= |= ^= >>= <<=",
}.items()}
WORDS |= {name: [word for _, word in NODES.by_name[kind].parts] for name, kind in {
    "Severity": "DiagnosticSeverity", "Space": "AddressSpace", "Mode": "AccessMode",
    "Builtin": "BuiltinValue", "Interpolation": "InterpolationType",
    "Sampling": "InterpolationSampling"}.items()}
WORDS |= {name: [ATTRIBUTES[it] for it, held in NODES.by_name["Attribute"].parts if held == wanted]
          for name, wanted in {"OneArgument": "Expression", "NoArgument": ""}.items()}
WORDS["Custom"] = sorted({*KEYWORDS, *RESERVED, "a", "x7"} - {*ATTRIBUTES.values()})
RULES = """
Module = Directive* Declaration* Declaration*
Directive = A* enable Name, ; / A* requires Name, ; / A* diagnostic ( Severity , Rule Comma? ) ;
Declaration = ; / A* Var ; / A* const Typed Value ; / A* override Typed Value? ;
    / A* alias Name = Type ; / A* const_assert Expression ; / A* struct Name { Member, }
    / Function / Function
Function = A* fn Name ( Members? ) Result? Block
Members = Member,
Member = A* Name : Type
Result = -> A* Type
Rule = Name / Name . Name
Comma = ,
Colon = :
Var = var Template? Typed Value?
Template = ‹ Space Comma? › / ‹ storage , Mode Comma? ›
Typed = Name / Name : Type
Value = = Expression
A = @ Custom / @ Custom Arguments / @ NoArgument / @ OneArgument ( Expression Comma? ) / @ Known
Known = builtin ( Builtin ) / interpolate ( Interpolation )
    / interpolate ( Interpolation , Sampling ) / diagnostic ( Severity , Rule )
    / workgroup_size ( Expression ) / workgroup_size ( Expression , Expression , 1 , )
    / type ( Name , Type Variant* )
Variant = | Type
Block = A* { Statement* }
Statement = ; / Simple ; / Simple ; / Simple ; / Block
    / A* if Expression Block ElseIf* Else? / A* switch Expression A* { Clause+ }
    / A* loop A* { Statement* Continuing? } / A* for ( Init? ; Expression? ; Update? ) Block
    / A* while Expression Block
ElseIf = else if Expression Block
Else = else Block
Clause = A* default Colon? Block / A* case Selector, Colon? Block
Selector = default / Expression
Continuing = A* continuing A* { Statement* BreakIf? }
BreakIf = A* break if Expression ;
Simple = Init / A* break / A* continue / A* discard / A* return Expression?
    / A* const_assert Expression
Init = Update / A* Var / A* let Typed Value / A* const Typed Value
Update = A* Call / A* _ Value / A* Left Change / Closed Change
Left = Name Component* / * AnyLeft / & AnyLeft
Closed = ( AnyLeft ) Component*
AnyLeft = Left / Closed
Change = ++ / -- / Assigned Expression / Assigned Expression
Type = Name / Name ‹ Argument, ›
Call = Type Arguments
Arguments = ( ) / ( Items )
Items = Expression,
Component = . Name / [ Expression ]
Singular = Name / Literal / Type Component* / Call Component* / ( Expression ) Component*
Unary = Singular / Singular / Prefix Unary
Mul = Unary / Unary Times+
Times = Product Unary
Add = Mul / Mul Plus+
Plus = Sum Mul
Shift = Add / Unary Shifted Unary
Relation = Shift / Shift Compared Shift
Expression = Relation / Relation And+ / Relation Or+ / Unary BitAnd+ / Unary BitOr+ / Unary BitXor+
And = && Relation
Or = || Relation
BitAnd = & Unary
BitOr = | Unary
BitXor = ^ Unary
""".strip().replace("\n    ", " ").splitlines()
RULES = {name: [way.split() for way in ways.split(" / ")]
         for name, ways in (line.split(" = ", 1) for line in RULES)}
COUNTS = {"": (1, 1), "?": (0, 1), "*": (0, 3), "+": (1, 3), ",": (1, 3)}
# what may be around a value, or around a block, any number of times
AROUND = [[["("], ["-"], ["a", OPEN], ["f", "("], ["a", "["], ["(", "1", "+"], ["(", "b", "<<"]],
          [["{"], ["if", "a", "{"], ["loop", "{"], ["for", "(", ";", ";", ")", "{"],
           ["@", "a", "{"]]]
CLOSING = {"(": ")", "[": "]", "{": "}"}

WORD = re.compile(r"[^\W\d]\w*")
NUMBER = re.compile(r"0[xX][\da-fA-F]*\.?[\da-fA-F]*(?:[pP][+-]?\d+[fh]?|[iu])?"
                    r"|(?:\d+\.?\d*|\.\d+)(?:[eE][+-]?\d+)?[fhiu]?")
LONGEST_FIRST = sorted(SYMBOLS, key=len, reverse=True)
TOKEN = re.compile("|".join([WORD.pattern, NUMBER.pattern, *map(re.escape, LONGEST_FIRST)]))


class Derivation:
    """Makes modules by the rules, each a list of tokens: the more, the greater the size."""

    def __init__(self, random, size):
        self.random = random
        self.left = size
        self.depth = 0
        self.deepest = random.choice([15, 30, 60, 120])

    def symbol(self, name):
        if name in WORDS:
            return [self.random.choice(WORDS[name])]
        if name == "Argument":
            return guarded(self.symbol("Expression"))
        ways = RULES[name]
        is_over = self.left <= 0 or self.random.random() * self.deepest < self.depth
        self.left -= 1
        self.depth += 1
        way = ways[0] if is_over else self.random.choice(ways)
        tokens = [token for item in way for token in self.item(item)]
        self.depth -= 1
        return tokens

    def item(self, item):
        if not item[0].isupper():
            return [{"‹": OPEN, "›": CLOSE}.get(item, item)]
        name, mark = (item[:-1], item[-1]) if item[-1] in COUNTS else (item, "")
        least, most = COUNTS[mark]
        # few things have attributes, and large modules many declarations
        own = {"A*": self.random.choice([0, 0, 0, 3]), "Declaration*": 3 + self.left // 20}
        most = own.get(item, most)
        count = self.random.randint(least, most) if self.left > 0 else least
        parts = [self.symbol(name) for _ in range(count)]
        if mark == "," and self.random.random() < 0.8:
            return [token for part in parts for token in (*part, ",")][:-1]
        return [token for part in parts for token in (*part, *mark.strip("?*+"))]

    def deep(self):
        """A module with one thing in another many times."""
        around = self.random.randrange(2)
        parts = self.random.sample(AROUND[around], self.random.choice([1, 1, 2]))
        count = self.random.randint(20, 150)
        fronts = [token for _ in range(count) for token in self.random.choice(parts)]
        # a `(` that is closed in its front closes nothing after
        opened = [token for token in fronts if token in CLOSING or token is OPEN]
        after = [CLOSE if token is OPEN else CLOSING[token] for token in reversed(opened)]
        after = [token for token in after if not (around and token == ")")]
        if around:
            return ["fn", "f", "(", ")", "{", *fronts, *self.symbol("Statement"), *after, "}"]
        return ["const", "x", "=", *fronts, "(", *self.symbol("Expression"), ")", *after, ";"]


def deeper(token):
    return (token is OPEN or token in ("(", "[")) - (token is CLOSE or token in (")", "]"))


def guarded(expression):
    """An expression for a template list: in parentheses where a part of it would end the list."""
    depth = 0
    for token in expression:
        depth += deeper(token)
        if depth == 0 and token is not CLOSE and token in (">", ">=", ">>", "&&", "||"):
            return ["(", *expression, ")"]
    return expression


def reaches_end(tokens):
    """Whether a template list that begins before these tokens could end among them."""
    depth = 0
    for token in tokens:
        if depth == 0 and token.startswith(">"):
            return True
        if token in ("{", "}", ";", ":", "=") or depth == 0 and token in (")", "]", "&&", "||"):
            return False
        depth += deeper(token)
    return False


def module_tokens(random):
    """A module, with `<=` for each `<` that would begin a template list and is not to."""
    sizes = [5, 20, 30, 50, 100, 200, random.choice([200, 1000])]
    derivation = Derivation(random, random.choice(sizes))
    tokens = derivation.deep() if random.random() < 0.02 else derivation.symbol("Module")
    for place in range(len(tokens) - 1, 0, -1):
        is_operator = tokens[place] == "<" and tokens[place] is not OPEN
        if is_operator and WORD.match(tokens[place - 1]) and reaches_end(tokens[place + 1:]):
            tokens[place] = "<="
    return tokens


def is_word(token):
    """Whether it is a name, a keyword or a number."""
    return bool(WORD.match(token) or NUMBER.match(token))


def closes_up(left, right):
    """Whether two tokens may be next to each other."""
    if any(isinstance(it, Bracket) or it in set("()[]{},;@:~") for it in (left, right)):
        return True
    is_longer = right == "." and NUMBER.match(left) and left[-1] not in "iu"
    return is_word(left) != is_word(right) and not is_longer


def laid_out(random, tokens):
    """A text of these tokens, with blanks and comments between."""
    blanks, share = random.choice([[" "], BLANKS, BLANKS]), random.choice([0, 0.5, 1])
    parts = [random.choice(blanks)]
    for left, right in zip(tokens, [*tokens[1:], ";"]):
        parts.append(left)
        if not closes_up(left, right) or random.random() < share:
            # directly after `/` a comment would begin too early
            parts.append(" " if left == "/" else random.choice(blanks))
    return "".join(parts + [random.choice(["", "", "\n", "// end", "/* open"])])


def kept(tokens):
    """What is left of a module's tokens where it is printed: words and numbers, these by value."""
    return [spelled(token) for token in tokens if token not in ("case", "_") and is_word(token)]


def spelled(token):
    whole = re.fullmatch(r"(0[xX])?([\da-fA-F]+)([iu]?)", token)
    is_whole = whole and (whole[1] or whole[2].isdecimal())
    return f"{int(whole[2], 16 if whole[1] else 10)}{whole[3]}" if is_whole else token


def changed(random, pieces, piece):
    """The pieces of a text with a few changes; `piece` makes a new one."""
    for _ in range(random.choice([1, 1, 2, 4])):
        at, to = random.randrange(len(pieces) + 1), random.randrange(len(pieces) + 1)
        end = min(len(pieces), at + random.choice([1, 1, 2, 8]))
        pieces = random.choice([
            pieces[:at] + pieces[end:], pieces[:end] + pieces[at:],
            pieces[:at] + [piece()] + pieces[end:], pieces[:at] + [piece()] + pieces[at:],
            pieces[:to] + pieces[at:end] + pieces[to:], pieces[:at]])
    return pieces


def any_token(random):
    pools = WORDS["Name"], WORDS["Literal"], KEYWORDS, RESERVED, SYMBOLS, SYMBOLS, BLANKS, STRAYS
    return random.choice(random.choice(pools))


def mutant(random):
    """A module or a shader with changes in its tokens, its bytes, or both."""
    tokens = module_tokens(random)
    if random.random() < 0.2:
        tokens = TOKEN.findall(random.choice(SHADERS).read_text())
    where = random.randrange(3)
    if where < 2:
        tokens = changed(random, tokens, lambda: any_token(random))
    text = laid_out(random, tokens).encode()
    return text if where == 0 else bytes(changed(random, list(text), lambda: random.randrange(256)))


def any_tokens(random):
    between = random.choice(["", " "])
    return between.join(any_token(random) for _ in range(random.randint(0, 60))).encode()


def any_bytes(random):
    pool = random.choice([range(256), range(128), b"<>(){}[]*/-=;,.@ab0 \n",
                          "aü€💌;".encode() + b"\xc3\xed\xa0"])
    return bytes(random.choice(pool) for _ in range(random.randint(0, 200)))


# how each kind of text is made, but for modules, and how many there are of each among thirteen
KINDS = {"modules": (None, 5), "mutants": (mutant, 5), "lists of tokens": (any_tokens, 2),
         "lists of bytes": (any_bytes, 1)}


class Text(NamedTuple):
    """A text, and of a module what has to be printed of it."""

    kind: str
    source: bytes
    kept: list = None


def text_of(seed, number):
    random = Random(f"{seed} {number}")
    kind = random.choices(list(KINDS), [share for _, share in KINDS.values()])[0]
    if kind != "modules":
        return Text(kind, KINDS[kind][0](random))
    tokens = module_tokens(random)
    return Text(kind, laid_out(random, tokens).encode(), kept(tokens))
