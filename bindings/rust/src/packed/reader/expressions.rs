//! Expressions and types, read from packed forms.

use super::*;
use crate::packed::Unpacked;
use crate::span::Spanned;
use crate::syntax::*;

impl Unpacked for Expression {
    fn unpack(from: &mut Reader<'_>) -> Option<Self> {
        from.expression().map(|expression| *expression)
    }
}

impl Reader<'_> {
    /// Reads a span and an expression.
    pub(super) fn expression_node(&mut self) -> Option<ExpressionNode> {
        let span = self.span()?;
        if self.is_deep() {
            return self.leave_out(Kind::Expression, span);
        }
        Some(Spanned::new_boxed(self.expression()?, span))
    }

    /// Reads an expression.
    fn expression(&mut self) -> Option<Box<Expression>> {
        match self.rule()? {
            CHAIN => self.chain(),
            rule => self.leftmost(rule),
        }
    }

    /// Reads what is after the number of a rule in an expression that is leftmost.
    #[inline]
    fn leftmost(&mut self, rule: u8) -> Option<Box<Expression>> {
        match rule {
            NAME => {
                let name = TypeExpression::new(self.ident()?);
                Some(Box::new(Expression::TypeOrIdentifier(name)))
            }
            INT => {
                let number = LiteralExpression::AbstractInt(integer(self.bytes()?)?);
                Some(Box::new(Expression::Literal(number)))
            }
            FLOAT => {
                let number = LiteralExpression::AbstractFloat(self.text()?.to_owned());
                Some(Box::new(Expression::Literal(number)))
            }
            _ => self.other(rule),
        }
    }

    /// Reads what is after the number of a rule in an expression that is not one of the shortest.
    fn other(&mut self, rule: u8) -> Option<Box<Expression>> {
        if rule < PARENTHESIZED {
            let literal = self.literal(rule)?;
            return Some(Box::new(Expression::Literal(literal)));
        }
        self.depth += 1;
        let expression = match rule {
            PARENTHESIZED => {
                let expression = self.expression_node()?;
                Box::new(Expression::Parenthesized(ParenthesizedExpression {
                    expression,
                }))
            }
            UNARY | UNARY_APART => {
                let operator = self.word()?;
                let operand = self.expression_node()?;
                Box::new(Expression::Unary(UnaryExpression { operator, operand }))
            }
            CALL => {
                let call = self.call_after()?;
                Box::new(Expression::FunctionCall(call))
            }
            TEMPLATE => {
                let ty = self.template()?;
                Box::new(Expression::TypeOrIdentifier(ty))
            }
            _ => return None,
        };
        self.depth -= 1;
        Some(expression)
    }

    /// Reads what is after the number of a rule in a literal.
    fn literal(&mut self, rule: u8) -> Option<LiteralExpression> {
        Some(match rule {
            FALSE => LiteralExpression::Bool(false),
            TRUE => LiteralExpression::Bool(true),
            I32 => LiteralExpression::I32(integer(self.bytes()?)?.try_into().ok()?),
            U32 => LiteralExpression::U32(integer(self.bytes()?)?.try_into().ok()?),
            F32 => LiteralExpression::F32(self.text()?.to_owned()),
            F16 => LiteralExpression::F16(self.text()?.to_owned()),
            _ => return None,
        })
    }

    /// Reads what is leftmost in a component, an element or an operation, and what follows it.
    fn chain(&mut self) -> Option<Box<Expression>> {
        self.depth += 1;
        let rule = self.rule()?;
        let mut left = self.leftmost(rule)?;
        loop {
            let rule = self.rule()?;
            if rule == NOTHING {
                self.depth -= 1;
                return Some(left);
            }
            let left_node = Spanned::new_boxed(left, self.span()?);
            left = self.link(rule, left_node)?;
        }
    }

    /// Reads what is after what is before it, and after the number of a rule.
    #[inline]
    fn link(&mut self, rule: u8, left: ExpressionNode) -> Option<Box<Expression>> {
        match rule {
            COMPONENT | COMPONENT_OF_INT => {
                let (component, base) = (self.ident()?, left);
                let component = NamedComponentExpression { component, base };
                Some(Box::new(Expression::NamedComponent(component)))
            }
            INDEX => {
                let (index, base) = (self.expression_node()?, left);
                let element = IndexingExpression { index, base };
                Some(Box::new(Expression::Indexing(element)))
            }
            BINARY => {
                let operator = self.word()?;
                let right = self.expression_node()?;
                Some(Box::new(Expression::Binary(BinaryExpression {
                    operator,
                    right,
                    left,
                })))
            }
            _ => None,
        }
    }

    /// Reads expressions one after another.
    pub(super) fn expressions(&mut self) -> Option<Vec<ExpressionNode>> {
        self.list((NOTHING, NODES, NODE), Self::expression_node)
    }

    /// Reads a call.
    pub(super) fn call(&mut self) -> Option<FunctionCall> {
        self.expect(CALL)?;
        self.call_after()
    }

    /// Reads what is after the number of the rule of a call.
    fn call_after(&mut self) -> Option<FunctionCall> {
        let (ty, arguments) = (self.ty()?, self.expressions()?);
        Some(FunctionCall { ty, arguments })
    }

    /// Reads a type.
    pub(super) fn ty(&mut self) -> Option<TypeExpression> {
        match self.rule()? {
            NAME => self.ident().map(TypeExpression::new),
            TEMPLATE => {
                self.depth += 1;
                let ty = self.template()?;
                self.depth -= 1;
                Some(ty)
            }
            _ => None,
        }
    }

    /// Reads what is after the number of the rule of a type with a template.
    fn template(&mut self) -> Option<TypeExpression> {
        let ident = self.ident()?;
        let arguments = self.list((NOTHING, NODES, NODE), |it| {
            let expression = it.expression_node()?;
            Some(TemplateArg { expression })
        })?;
        Some(TypeExpression {
            ident,
            template_args: Some(arguments),
        })
    }

    /// Reads an expression with its span, after the number of a rule if it is there.
    pub(super) fn optional_node(&mut self, rule: u8) -> Option<Option<ExpressionNode>> {
        Some(match self.has(rule)? {
            true => Some(self.expression_node()?),
            false => None,
        })
    }
}

/// How many digits a number has at most that always fits into 63 bits.
const EXACT_DIGITS: usize = 18;

/// Reads a whole number in decimal.
#[inline]
fn integer(text: &[u8]) -> Option<i64> {
    if text.len() > EXACT_DIGITS || !text.iter().all(u8::is_ascii_digit) {
        return other_integer(text);
    }
    let digits = text.iter().map(|digit| i64::from(digit - b'0'));
    Some(digits.fold(0, |number, digit| number * 10 + digit))
}

/// Reads a whole number that is negative or long.
#[cold]
fn other_integer(text: &[u8]) -> Option<i64> {
    std::str::from_utf8(text).ok()?.parse().ok()
}
