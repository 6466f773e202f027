"""Writes, for each symbol of the factored grammar that some crate cites, the word for what its
right side reads and the equation that the symbol reads just that.

By hand, each proof that cites one more symbol would change two more files.
"""
import re
from pathlib import Path

from antt import constructors

READS = ("crates/*/src/*.rt", "crates/*/specs/*.antt", "crates/*/proofs/*.antt")
WRITES = ("crates/wgsl_theory_grammar/specs/*Rules.antt",
          "crates/wgsl_theory_grammar/proofs/*Equations.antt")

CRATE = Path("crates/wgsl_theory_grammar")
SYMBOLS = Path("crates/wgsl_model/specs/Grammar/Symbols.antt")

# the further symbols of expressions and of modules; the others are those of statements
EXPRESSION_PARTS = """
    template_items template_rest template_more argument_rest argument_more components factors
    summands sum_rest relation_rest and_rest or_rest bitwise_and_rest bitwise_or_rest
    bitwise_xor_rest expression_rest
""".split()
UNIT_PARTS = """
    member_items member_rest member_more parameter_rest parameter_more name_items name_rest
    name_more var_part override_part function_part const_part alias_part struct_part enable_part
    requires_part diagnostic_part attributed_part led_part directive_part declaration_list front
""".split()


def groups():
    """The name of each group, what it is of, its written and its further symbols."""
    symbols = constructors(SYMBOLS, "Symbol")
    parts = constructors(CRATE / "specs" / "Factored.antt", "Further")
    left_side = symbols.index("lhs_expression") + 1
    update = symbols.index("for_update") + 1
    shared = ["var_template", "typed_ident"]
    of_statements = [it for it in parts if it not in EXPRESSION_PARTS + UNIT_PARTS]
    of_units = [it for it in symbols[update:] if it not in shared]
    return [("Expression", "expressions", symbols[:left_side], EXPRESSION_PARTS),
            ("Statement", "attributes and statements", symbols[left_side:update] + shared,
             of_statements),
            ("Unit", "declarations, directives and units", of_units, UNIT_PARTS)]


def cited(group):
    """The symbols of a group whose word or equation is cited in some crate."""
    forms = ("*/src/**/*.rt", "*/specs/**/*.antt", "*/proofs/**/*.antt")
    written = (f"{group}Rules", f"{group}Equations")
    paths = [path for form in forms for path in CRATE.parent.glob(form) if path.stem not in written]
    cites = re.compile(rf"{group}(?:Rules|Equations)(?:::|\.)(\w+|\{{[^}}]*\}})")
    found = [names for path in paths for names in cites.findall(path.read_text())]
    return {name[:-3] for names in found for name in re.findall(r"\w+_(?:at|is)\b", names)}


def imports(module, *names):
    """The line that imports names of a module."""
    return f"use Rattle.{module}.{{{', '.join(names)}}}\n"


def symbols_of(symbols):
    """The line that imports written symbols, with what else of their file."""
    return imports("wgsl_model.specs.Grammar.Symbols", *symbols)


def factored(parts, *others):
    """The line that imports the factored grammar: of further symbols nothing, if none is cited."""
    front, *more = others or [None]
    further = ["FactoredSymbol.further", *([front] if front else []),
               *(f"Further.{it}" for it in parts)] if parts else []
    return imports(f"{CRATE.name}.specs.Factored", "FactoredSymbol.of", *further, *more)


def rules(what, symbols, parts):
    """The words for what right sides read."""
    head = (f"-- What the symbols of {what} that are cited read by their right sides, each as a "
            "word of its own, which no computation opens; written by tools/tables/rules.py.\n"
            + imports("grammar.specs.States", "State", "Read", "go")
            + symbols_of(["Value", *(f"Symbol.{it}" for it in symbols)])
            + factored(parts, "FurtherValue", "body")
            + imports(f"{CRATE.name}.specs.Tables", "tables")
            + imports(f"{CRATE.name}.specs.Reader", "reader"))
    words = [(it, f"Value {it}", f"of {it}") for it in symbols]
    words += [(it, f"FurtherValue {it}", f"further {it}") for it in parts]
    return head + "".join(
        f"\nunfoldable pub {name}_at : State → Read ({value})\n"
        f"{name}_at s = go tables reader (body ({symbol})) s\n" for name, value, symbol in words)


def equations(group, what, symbols, parts):
    """The equations that symbols read what their right sides do."""
    words = [(it, f"of {it}") for it in symbols] + [(it, f"further {it}") for it in parts]
    head = (f"-- Each symbol of {what} that is cited reads what its right side reads; "
            "written by tools/tables/rules.py.\n"
            + imports("std.proofs.Common", "◌≡◌") + imports("grammar.specs.States", "State")
            + symbols_of(f"Symbol.{it}" for it in symbols) + factored(parts)
            + imports(f"{CRATE.name}.specs.Reader", "reader")
            + imports(f"{CRATE.name}.specs.{group}Rules", *(f"{it}_at" for it, _ in words))
            + imports(f"{CRATE.name}.proofs.Reader", "step"))
    return head + "".join(
        f"\npub {name}_is : (s : State) → reader ({symbol}) s ≡ {name}_at s\n"
        f"unfolding {name}_at\n{name}_is s = step ({symbol}) s\n" for name, symbol in words)


def main():
    for group, what, symbols, parts in groups():
        used = cited(group)
        symbols, parts = ([it for it in those if it in used] for those in (symbols, parts))
        (CRATE / "specs" / f"{group}Rules.antt").write_text(rules(what, symbols, parts))
        (CRATE / "proofs" / f"{group}Equations.antt").write_text(
            equations(group, what, symbols, parts))
