//! Expressions and types, written as packed forms.

use super::*;
use crate::syntax::*;

/// What follows what is before it.
#[derive(Clone, Copy, Debug)]
pub enum Link<'t> {
    /// A component.
    Component(&'t NamedComponentExpression),
    /// An element.
    Element(&'t IndexingExpression),
    /// An operation.
    Operation(&'t BinaryExpression),
}

impl<'t> Link<'t> {
    /// Returns what an expression ends with, if something is before it.
    #[inline]
    fn last(expression: &'t Expression) -> Option<Self> {
        match expression {
            Expression::NamedComponent(component) => Some(Link::Component(component)),
            Expression::Indexing(element) => Some(Link::Element(element)),
            Expression::Binary(operation) => Some(Link::Operation(operation)),
            _ => None,
        }
    }

    /// Returns what is before it.
    #[inline]
    fn left(self) -> &'t ExpressionNode {
        match self {
            Link::Component(component) => &component.base,
            Link::Element(element) => &element.base,
            Link::Operation(operation) => &operation.left,
        }
    }
}

impl Packed for Expression {
    fn pack<'t>(&'t self, out: &mut Writer<'t>) {
        match Link::last(self) {
            None => out.leftmost(self),
            Some(link) => out.chain(link),
        }
    }
}

impl Packed for NamedComponentExpression {
    fn pack<'t>(&'t self, out: &mut Writer<'t>) {
        out.chain(Link::Component(self));
    }
}

impl Packed for IndexingExpression {
    fn pack<'t>(&'t self, out: &mut Writer<'t>) {
        out.chain(Link::Element(self));
    }
}

impl Packed for BinaryExpression {
    fn pack<'t>(&'t self, out: &mut Writer<'t>) {
        out.chain(Link::Operation(self));
    }
}

impl Packed for LiteralExpression {
    fn pack<'t>(&'t self, out: &mut Writer<'t>) {
        let (rule, spelling) = match self {
            LiteralExpression::Bool(true) => return out.rule(TRUE),
            LiteralExpression::Bool(false) => return out.rule(FALSE),
            LiteralExpression::AbstractInt(number) => return out.integer(INT, *number),
            LiteralExpression::I32(number) => return out.integer(I32, (*number).into()),
            LiteralExpression::U32(number) => return out.integer(U32, (*number).into()),
            LiteralExpression::AbstractFloat(spelling) => (FLOAT, spelling),
            LiteralExpression::F32(spelling) => (F32, spelling),
            LiteralExpression::F16(spelling) => (F16, spelling),
        };
        out.rule(rule);
        out.text(spelling);
    }
}

impl Packed for ParenthesizedExpression {
    fn pack<'t>(&'t self, out: &mut Writer<'t>) {
        out.rule(PARENTHESIZED);
        out.expression_node(&self.expression);
    }
}

impl Packed for UnaryExpression {
    fn pack<'t>(&'t self, out: &mut Writer<'t>) {
        let would_be_one = match self.operand.node() {
            Expression::Unary(inner) => would_be_one(self.operator, inner.operator),
            _ => false,
        };
        out.rule(if would_be_one { UNARY_APART } else { UNARY });
        out.text(self.operator.word());
        out.expression_node(&self.operand);
    }
}

/// Whether two operators would be read as one, `--` or `&&`.
fn would_be_one(outer: UnaryOperator, inner: UnaryOperator) -> bool {
    outer == inner && matches!(outer, UnaryOperator::Negation | UnaryOperator::AddressOf)
}

impl Packed for FunctionCall {
    fn pack<'t>(&'t self, out: &mut Writer<'t>) {
        out.rule(CALL);
        self.ty.pack(out);
        out.expressions(&self.arguments);
    }
}

impl Packed for TypeExpression {
    fn pack<'t>(&'t self, out: &mut Writer<'t>) {
        match &self.template_args {
            None => {
                out.rule(NAME);
                out.ident(&self.ident);
            }
            Some(arguments) => out.template(&self.ident, arguments),
        }
    }
}

impl<'t> Writer<'t> {
    /// Writes a span and an expression.
    #[inline]
    pub(super) fn expression_node(&mut self, node: &'t ExpressionNode) {
        self.span(node.span);
        node.node().pack(self);
    }

    /// Writes expressions one after another.
    pub(super) fn expressions(&mut self, expressions: &'t [ExpressionNode]) {
        self.list((NOTHING, NODES, NODE), expressions, Self::expression_node);
    }

    /// Writes an expression with its span after the number of a rule, or that it is left out.
    pub(super) fn optional_node(&mut self, rule: u8, node: &'t Option<ExpressionNode>) {
        self.optional(rule, node, Self::expression_node);
    }

    /// Writes a type with a template.
    fn template(&mut self, ident: &'t Ident, arguments: &'t [TemplateArg]) {
        self.rule(TEMPLATE);
        self.ident(ident);
        self.inside(move |out| {
            out.list((NOTHING, NODES, NODE), arguments, |out, argument| {
                out.expression_node(&argument.expression);
            });
        });
    }

    /// Writes an expression in which nothing has something else before it.
    #[inline]
    fn leftmost(&mut self, expression: &'t Expression) {
        match expression {
            Expression::Literal(literal) => literal.pack(self),
            Expression::TypeOrIdentifier(ty) => ty.pack(self),
            _ => self.other(expression),
        }
    }

    /// Writes such an expression that may nest.
    fn other(&mut self, expression: &'t Expression) {
        self.inside(move |out| match expression {
            Expression::Parenthesized(parenthesized) => parenthesized.pack(out),
            Expression::Unary(unary) => unary.pack(out),
            Expression::FunctionCall(call) => call.pack(out),
            _ => unreachable!("the others are no leftmost expressions, or are short"),
        });
    }

    /// Writes an expression that ends with a link: what is leftmost in it, and each link.
    fn chain(&mut self, last: Link<'t>) {
        self.inside(move |out| out.links_after_leftmost(last));
    }

    /// Writes the same.
    fn links_after_leftmost(&mut self, last: Link<'t>) {
        let outside = self.links.len();
        let mut left = last.left();
        self.links.push(last);
        while let Some(link) = Link::last(left.node()) {
            self.links.push(link);
            left = link.left();
        }
        self.rule(CHAIN);
        self.leftmost(left.node());
        while self.links.len() > outside {
            if let Some(link) = self.links.pop() {
                self.link(link);
            }
        }
        self.rule(NOTHING);
    }

    /// Writes a link, with the span of what is before it.
    #[inline]
    fn link(&mut self, link: Link<'t>) {
        let left = link.left();
        match link {
            Link::Component(component) => {
                self.rule(component_rule_of(left));
                self.span(left.span);
                self.ident(&component.component);
            }
            Link::Element(element) => {
                self.rule(INDEX);
                self.span(left.span);
                self.expression_node(&element.index);
            }
            Link::Operation(operation) => {
                self.rule(BINARY);
                self.span(left.span);
                self.text(operation.operator.word());
                self.expression_node(&operation.right);
            }
        }
    }

    /// Writes a whole number in decimal after the number of a rule.
    fn integer(&mut self, rule: u8, number: i64) {
        self.rule(rule);
        self.text(&number.to_string());
    }
}

/// The number of the rule of a component, by what it is taken of.
fn component_rule_of(base: &ExpressionNode) -> u8 {
    match base.node() {
        Expression::Literal(LiteralExpression::AbstractInt(_)) => COMPONENT_OF_INT,
        _ => COMPONENT,
    }
}
