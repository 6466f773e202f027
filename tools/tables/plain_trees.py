"""How the plain trees of wgsl_model differ from crates/wgsl_model/nodes.

A struct in a cycle of types is made by a constructor, and so are its lists and optional parts; the
others are records. Names follow from those of the kinds, where they are not listed here.
"""
import re

from node_specs import cycle
from node_table import Table, snake

# the files of the plain trees, and the sections of the table whose kinds each has
FILES = {
    "Expressions": ["Expressions"],
    "Attributes": ["Attributes"],
    "Statements": ["Variable and Value Declarations", "Statements"],
    "Units": ["WGSL Module", "Directives", "Types", "Functions"],
}
# the constructors of structs with other names than theirs
CONSTRUCTORS = {
    "FunctionCall": "call", "TypeExpression": "type_expression",
    "CompoundStatement": "compound_statement", "IfStatement": "if_else", "LoopStatement": "repeat",
    "ForStatement": "repeat_for", "WhileStatement": "repeat_while",
}
# the parts of those that have them in another order than their fields
PARTS = {"NamedComponentExpression": "base component", "IndexingExpression": "base index",
         "BinaryExpression": "operator left right"}
# in a plain tree these have no type of their own: variants hold their parts
INLINE = ["ParenthesizedExpression", "NamedComponentExpression", "IndexingExpression",
          "UnaryExpression", "BinaryExpression"]
# the types of lists and of optional parts in a plain tree made by constructors: the constructor of
# none, and that of one, or of one before others
OWN = {
    "Expression*": ("ExpressionNodes", "no_expressions", "expression_before"),
    "TemplateArg*": ("ExpressionNodes", "no_expressions", "expression_before"),
    "TemplateArg*?": ("TemplateArguments", "no_template", "template"),
    "Statement*": ("StatementNodes", "no_statements", "statement_before"),
    "Statement?": ("MaybeStatement", "no_statement", "one_statement"),
    "ElseIfClause*": ("ElseIfClauses", "no_else_ifs", "else_if_before"),
    "ElseClause?": ("MaybeElseClause", "no_else", "one_else"),
    "SwitchClause*": ("SwitchClauses", "no_clauses", "clause_before"),
    "ContinuingStatement?": ("MaybeContinuing", "no_continuing", "one_continuing"),
}
# what makes those types of lists and optional parts, where it has another name than its functions
MAKERS = {"ExpressionNodes": "expressions_of", "MaybeContinuing": "continuing_of",
          "MaybeStatement": "maybe_statement"}
# the structs that have their attributes among their fields there; those of others are apart
WITH_ATTRIBUTES = ["CompoundStatement", "ElseIfClause", "ElseClause", "SwitchClause",
                   "ContinuingStatement", "StructMember", "FormalParameter"]
# the types of variants whose attributes are apart
UNATTRIBUTED = {"Statement": "UnattributedStatement", "GlobalDirective": "UnattributedDirective",
                "GlobalDeclaration": "UnattributedDeclaration"}
# what a field is called as a part, where its name is a constructor
RENAMED = {"if_clause": "first_clause"}
# the word that ends the constructors of the variants of an enum; of a statement, of those that hold
# a struct of that name
ENDINGS = {"DeclarationKind": "kind", "CaseSelector": "selector", "Statement": "statement"}
# the constructors of variants with other names
VARIANTS = {
    "LiteralExpression": {"Bool": "boolean"},
    "Statement": {name: snake(name) for name in [
        "Compound", "Assignment", "Increment", "Decrement"]},
    "GlobalDeclaration": {"Struct": "structure"},
    "Attribute": {"If": "if_attribute", "Elif": "elif_attribute", "Const": "const_attribute",
                  "Else": "else_attribute"},
}
# the kinds whose functions have other names than theirs without a last word
SHORT = {
    "FunctionCall": "call", "TemplateArguments": "template",
    "FunctionCallStatement": "call_statement", "ConstAssert": "assert", "CaseSelector": "selector",
    "StatementNodes": "statements", "MaybeStatement": "part", "ElseIfClauses": "else_ifs",
    "MaybeElseClause": "else", "SwitchClauses": "clauses", "StructMember": "member",
    "FormalParameter": "parameter", "TranslationUnit": "unit",
}
# what gives a plain tree without its spans, where that has another name than its code
WITHOUT_SPANS = {"ExpressionNodes": "bare_expressions", "TemplateExpressions": "bare_expressions",
                 "GlobalDirective": "bare_directive"}
# the kinds in which there are no spans
SPANLESS = ["LiteralExpression", "DiagnosticAttribute", "InterpolateAttribute", "DeclarationKind",
            "DiagnosticDirective", "EnableDirective", "RequiresDirective", "UnattributedDirective"]
# what gives the word of a value
WORDS = {"DiagnosticSeverity": "severity_text"}


def constructor(kind, name):
    """The constructor of a variant."""
    held = dict(kind.parts)[name]
    ending = ENDINGS.get(kind.name)
    if kind.name == "Statement" and not held.endswith("Statement"):
        ending = None
    made = f"{snake(name)}_{ending}" if ending else snake(name)
    return VARIANTS.get(kind.name, {}).get(name, made)


def without_last(name):
    """The name of a kind, without the word that many end with."""
    return snake(re.sub(r"(?<=\w)(Statement|Expression|Attribute)$", "", name))


def is_apart(kind):
    """Whether the attributes of a struct are apart from it."""
    return (kind is not None and kind.form == "struct" and kind.parts[0][0] == "attributes"
            and kind.name not in WITH_ATTRIBUTES)


def word_text(kind):
    """The function that gives the word of a value."""
    return WORDS.get(kind.name, f"{snake(kind.name)}_text")


def short(name):
    """What names the functions of a kind."""
    return SHORT.get(name) or without_last(name)


def coded(name):
    """The name of the function that gives the code of a kind."""
    return f"{short(name)}_code"


def bare(name):
    """What gives a plain tree of a kind without its spans."""
    if name in LEADING:
        return f"changed_{short(name)} without_spans"
    return WITHOUT_SPANS.get(name, f"bare_{short(name)}")


def maker(held):
    """What makes a list or an optional part that has a type of its own."""
    type_ = OWN[held][0]
    return MAKERS.get(type_) or f"{short(type_)}_of"


def made(kind):
    """The constructor of a struct, with its parts in order."""
    names = [RENAMED.get(name, name) for name, _ in kind.parts[is_apart(kind):]]
    front = CONSTRUCTORS.get(kind.name) or without_last(kind.name)
    return f"{front} {PARTS.get(kind.name) or ' '.join(names)}"


NODES = Table()


def kinds_of(file):
    """The kinds whose plain trees are in a file; words are in files of their own."""
    return [kind for kind in NODES.kinds if NODES.sections[kind.name] in FILES[file]
            and kind.form != "words" and kind.name not in INLINE]


# the structs whose plain tree is made by a constructor; an argument of a template is its expression
CONSTRUCTED = {kind.name: made(kind) for kind in NODES.of_form("struct")
               if cycle(NODES, kind.name) and kind.name != "TemplateArg"}
# those that a variant of a statement holds whole
LEADING = [held for name, held in NODES.by_name["Statement"].parts
           if held in CONSTRUCTED and name != "Compound"]
