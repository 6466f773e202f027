//! Trees that are made in parts, each with little stack.

use crate::span::{Span, Spanned};
use crate::syntax::{Expression, ExpressionNode, Statement, StatementNode};
use crate::visit::{Accept, VisitMut, Walk};

/// A part of a tree, which is a hole in the rest of it until it is put there.
enum Part {
    Expression(Expression),
    Statement(Statement),
}

/// Parts with their spans, by the numbers of their holes. A hole in a part has a greater number
/// than the part.
#[derive(Default)]
pub struct Parts(Vec<Option<(Span, Part)>>);

impl Parts {
    /// Returns how many parts there are.
    pub fn count(&self) -> usize {
        self.0.len()
    }

    /// Puts an expression at the end.
    pub fn push_expression(&mut self, span: Span, expression: Expression) {
        self.0.push(Some((span, Part::Expression(expression))));
    }

    /// Puts a statement at the end.
    pub fn push_statement(&mut self, span: Span, statement: Statement) {
        self.0.push(Some((span, Part::Statement(statement))));
    }

    /// Puts the parts into the holes of a tree, each after its own holes are filled.
    pub fn fill<T: Accept>(mut self, tree: &mut T) {
        if self.0.is_empty() {
            return;
        }
        for number in (0..self.0.len()).rev() {
            let Some((span, mut part)) = self.take(number) else {
                continue;
            };
            match &mut part {
                Part::Expression(expression) => expression.accept_mut(&mut self),
                Part::Statement(statement) => statement.accept_mut(&mut self),
            }
            self.0[number] = Some((span, part));
        }
        tree.accept_mut(&mut self);
    }

    /// Takes the part with a number.
    fn take(&mut self, number: usize) -> Option<(Span, Part)> {
        self.0.get_mut(number)?.take()
    }
}

impl VisitMut for Parts {
    /// Takes no more stack where more is on the left.
    fn visit_expression_node_mut(&mut self, mut node: &mut ExpressionNode) {
        loop {
            if let Some(number) = node.hole_number() {
                if let Some((span, Part::Expression(expression))) = self.take(number) {
                    *node = Spanned::new(expression, span);
                }
                return;
            }
            node = match node.node_mut() {
                Expression::NamedComponent(component) => &mut component.base,
                Expression::Indexing(element) => {
                    self.visit_expression_node_mut(&mut element.index);
                    &mut element.base
                }
                Expression::Binary(operation) => {
                    self.visit_expression_node_mut(&mut operation.right);
                    &mut operation.left
                }
                other => return other.walk_mut(self),
            };
        }
    }

    fn visit_statement_node_mut(&mut self, node: &mut StatementNode) {
        match node.hole_number() {
            None => node.walk_mut(self),
            Some(number) => {
                if let Some((span, Part::Statement(statement))) = self.take(number) {
                    *node = Spanned::new(statement, span);
                }
            }
        }
    }
}
