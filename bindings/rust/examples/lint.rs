//! Reports every `if` that compares floats with `==`: as `FILE:LINE:COLUMN: MESSAGE` for each file
//! that is named. The status is 1 if there is one, and 2 if a file is not a module.
//!
//! A float is here a literal such as `1.5` or `2f`, what `f32(..)` and `f16(..)` return, a value
//! whose declaration says that it is an `f32` or an `f16`, or a value that begins with a float, and
//! a sum and the like of these.

use centrelilac::syntax::*;
use centrelilac::visit::{Accept, Visit, Walk};
use centrelilac::{Fault, LineIndex};
use std::process::ExitCode;

const MESSAGE: &str = "floats are compared with `==`";

/// What is known of values, and where floats are compared.
#[derive(Default)]
struct Lint<'t> {
    /// The names that are declared, the innermost last, each with whether it is a float.
    names: Vec<(&'t str, bool)>,
    found: Vec<Span>,
}

impl<'t> Lint<'t> {
    /// Visits the parts of a node. What they declare is not known after it.
    fn walk_scope(&mut self, node: &'t impl Walk) {
        let outer = self.names.len();
        node.walk(self);
        self.names.truncate(outer);
    }

    /// Returns whether an expression is known to be a float.
    fn is_float(&self, expression: &Expression) -> bool {
        match expression {
            Expression::Literal(literal) => {
                literal.is_abstract_float() || literal.is_f32() || literal.is_f16()
            }
            Expression::Parenthesized(inside) => self.is_float(&inside.expression),
            Expression::Unary(unary) => self.is_float(&unary.operand),
            Expression::Binary(binary) => self.is_float_sum(binary),
            Expression::FunctionCall(call) => is_float_type(&call.ty),
            Expression::TypeOrIdentifier(name) => self.is_float_name(name.ident.name()),
            Expression::NamedComponent(_) | Expression::Indexing(_) => false,
        }
    }

    /// Returns whether the innermost value with a name is a float.
    fn is_float_name(&self, name: &str) -> bool {
        let known = self.names.iter().rfind(|known| known.0 == name);
        known.is_some_and(|(_, is_float)| *is_float)
    }

    /// Returns whether an operation gives a float.
    fn is_float_sum(&self, binary: &BinaryExpression) -> bool {
        use BinaryOperator::{Addition, Division, Multiplication, Remainder, Subtraction};
        let gives_floats = [Addition, Subtraction, Multiplication, Division, Remainder];
        gives_floats.contains(&binary.operator)
            && (self.is_float(&binary.left) || self.is_float(&binary.right))
    }

    /// Notes the comparisons in a condition.
    fn check(&mut self, condition: &ExpressionNode) {
        let mut comparisons = Comparisons {
            lint: self,
            found: Vec::new(),
        };
        comparisons.visit_expression_node(condition);
        let found = comparisons.found;
        self.found.extend(found);
    }
}

/// Returns whether a type is one of floats.
fn is_float_type(ty: &TypeExpression) -> bool {
    matches!(ty.ident.name(), "f32" | "f16")
}

impl<'t> Visit<'t> for Lint<'t> {
    fn visit_function(&mut self, function: &'t Function) {
        self.walk_scope(function);
    }

    fn visit_compound_statement(&mut self, block: &'t CompoundStatement) {
        self.walk_scope(block);
    }

    fn visit_for_statement(&mut self, statement: &'t ForStatement) {
        self.walk_scope(statement);
    }

    fn visit_loop_statement(&mut self, statement: &'t LoopStatement) {
        // `continuing` knows what the block before it declares
        let outer = self.names.len();
        statement.body.walk(self);
        statement.continuing.accept(self);
        self.names.truncate(outer);
    }

    fn visit_formal_parameter(&mut self, parameter: &'t FormalParameter) {
        let is_float = is_float_type(&parameter.ty);
        self.names.push((parameter.ident.name(), is_float));
    }

    fn visit_declaration(&mut self, declaration: &'t Declaration) {
        declaration.walk(self);
        let is_float = match (&declaration.ty, &declaration.initializer) {
            (Some(ty), _) => is_float_type(ty),
            (None, Some(value)) => self.is_float(value),
            (None, None) => false,
        };
        self.names.push((declaration.ident.name(), is_float));
    }

    fn visit_if_clause(&mut self, clause: &'t IfClause) {
        self.check(&clause.expression);
        clause.walk(self);
    }

    fn visit_else_if_clause(&mut self, clause: &'t ElseIfClause) {
        self.check(&clause.expression);
        clause.walk(self);
    }
}

/// The comparisons of floats in a condition.
struct Comparisons<'l, 't> {
    lint: &'l Lint<'t>,
    found: Vec<Span>,
}

impl<'t> Visit<'t> for Comparisons<'_, '_> {
    fn visit_expression_node(&mut self, node: &'t ExpressionNode) {
        if let Expression::Binary(binary) = node.node() {
            let is_float = |side: &ExpressionNode| self.lint.is_float(side);
            let equality = binary.operator == BinaryOperator::Equality;
            if equality && (is_float(&binary.left) || is_float(&binary.right)) {
                self.found.push(node.span());
            }
        }
        node.walk(self);
    }
}

/// Returns where a module compares floats in an `if`.
pub fn lint(text: &str) -> Result<Vec<Span>, Fault> {
    let unit = centrelilac::parse(text)?;
    let mut lint = Lint::default();
    // a function may use values that are declared after it
    for node in &unit.global_declarations {
        if let GlobalDeclaration::Declaration(declaration) = node.node() {
            declaration.accept(&mut lint);
        }
    }
    lint.visit_translation_unit(&unit);
    Ok(lint.found)
}

/// Prints what is found in a file, and returns the status.
fn lint_file(name: &str) -> Result<u8, String> {
    let text = std::fs::read_to_string(name).map_err(|error| format!("{name}: {error}"))?;
    let found = lint(&text).map_err(|fault| format!("{name}: {fault}"))?;
    let lines = LineIndex::new(&text);
    for span in &found {
        println!("{name}:{}: {MESSAGE}", lines.position(span.start));
    }
    Ok(u8::from(!found.is_empty()))
}

fn main() -> ExitCode {
    let mut status = 0;
    for name in std::env::args().skip(1) {
        status = status.max(lint_file(&name).unwrap_or_else(|message| {
            eprintln!("{message}");
            2
        }));
    }
    ExitCode::from(status)
}
