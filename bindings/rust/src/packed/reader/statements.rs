//! Statements and the declarations of values, read from packed forms.

use super::*;
use crate::packed::Unpacked;
use crate::span::Spanned;
use crate::syntax::*;

/// Statements in which no others are, and those in which some may be: the rule of each, and what is
/// after its attributes.
macro_rules! unpacked_statements {
    (
        $self:ident,
        short { $($short:ident($held:ident) = $short_rule:ident, $short_after:ident {
            $($field:ident: $value:expr,)*
        })* }
        nesting { $($nesting:ident($inner:ident) = $rule:ident, $after:ident {
            $($part:ident: $read:expr,)*
        })* }
    ) => {
        impl Reader<'_> {
            /// Reads what is after the number of the rule of a statement, without the `;` that
            /// ends it.
            pub(super) fn statement_after(&mut $self, rule: u8) -> Option<Box<Statement>> {
                let attributes = $self.attributes()?;
                Some(match rule {
                    $($short_rule => {
                        Box::new(Statement::$short($self.$short_after(attributes)?))
                    })*
                    $($rule)|* => {
                        $self.depth += 1;
                        let statement = $self.nesting(rule, attributes)?;
                        $self.depth -= 1;
                        statement
                    }
                    VOID if attributes.is_empty() => Box::new(Statement::Void),
                    _ => return None,
                })
            }

            /// Reads a statement in which others are, after its attributes.
            fn nesting(&mut $self, rule: u8, attributes: Attributes) -> Option<Box<Statement>> {
                match rule {
                    $($rule => $self.$after(attributes),)*
                    _ => None,
                }
            }

            $(#[inline]
            pub(in crate::packed::reader) fn $short_after(
                &mut $self,
                attributes: Attributes,
            ) -> Option<$held> {
                $(let $field = $value;)*
                Some($held { attributes, $($field,)* })
            })*

            $(#[inline(never)]
            fn $after(&mut $self, attributes: Attributes) -> Option<Box<Statement>> {
                $(let $part = $read;)*
                Some(Box::new(Statement::$nesting($inner { attributes, $($part,)* })))
            })*
        }
    };
}

/// The parts of statements: the rule of each, and what is after it.
macro_rules! unpacked_structs {
    ($($function:ident: $name:ident = $rule:ident, $self:ident {
        $($field:ident: $value:expr,)*
    })*) => {
        impl Reader<'_> {
            $(fn $function(&mut $self) -> Option<$name> {
                $self.expect($rule)?;
                Some($name { $($field: $value,)* })
            })*
        }
    };
}

mod rows;

impl Unpacked for Statement {
    fn unpack(from: &mut Reader<'_>) -> Option<Self> {
        from.statement().map(|statement| *statement)
    }
}

impl Reader<'_> {
    /// Reads a statement, with the `;` that ends it or without.
    fn statement(&mut self) -> Option<Box<Statement>> {
        let rule = self.rule()?;
        let after = if rule == ENDED { self.rule()? } else { rule };
        self.statement_after(after)
    }

    /// Reads a span and a statement.
    #[inline]
    fn statement_node(&mut self) -> Option<StatementNode> {
        let span = self.span()?;
        if self.is_deep() {
            return self.leave_out(Kind::Statement, span);
        }
        Some(Spanned::new_boxed(self.statement()?, span))
    }

    /// Reads the kind of a declaration.
    fn declaration_kind(&mut self) -> Option<DeclarationKind> {
        match self.rule()? {
            NAME => match self.word()? {
                DeclarationKind::Var(_) => None,
                kind => Some(kind),
            },
            VAR => Some(DeclarationKind::Var(match self.has(VAR_TEMPLATE)? {
                true => Some((self.word()?, self.further_word()?)),
                false => None,
            })),
            _ => None,
        }
    }

    /// Reads a block.
    pub(super) fn block(&mut self) -> Option<CompoundStatement> {
        self.expect(BLOCK)?;
        Some(CompoundStatement {
            attributes: self.attributes()?,
            statements: self.statements()?,
        })
    }

    /// Reads what is in a block, and its end.
    fn statements(&mut self) -> Option<Vec<StatementNode>> {
        let mut statements = Vec::new();
        loop {
            match self.rule()? {
                ITEM => statements.push(self.statement_node()?),
                VOID_ITEM => statements.push(Spanned::new(Statement::Void, self.span()?)),
                BLOCK_END | EMPTY_END | OPENED_END | EMPTY_OPENED_END => return Some(statements),
                _ => return None,
            }
        }
    }

    /// Reads clauses, each after the number of a rule, and the rule after them: one if there are
    /// none, another if there are some.
    #[inline]
    fn clauses<T>(
        &mut self,
        (rule, none, some): (u8, u8, u8),
        clause: impl Fn(&mut Self) -> Option<T>,
    ) -> Option<Vec<T>> {
        let mut clauses = Vec::new();
        loop {
            let next = self.rule()?;
            if next != rule {
                return (next == none || next == some).then_some(clauses);
            }
            clauses.push(clause(self)?);
        }
    }

    /// Reads what may be left out, after the number of a rule.
    #[inline]
    fn optional<T>(
        &mut self,
        rule: u8,
        part: impl Fn(&mut Self) -> Option<T>,
    ) -> Option<Option<T>> {
        if self.has(rule)? {
            part(self).map(Some)
        } else {
            Some(None)
        }
    }

    /// Reads what a clause of a `switch` selects.
    fn case_selector(&mut self) -> Option<CaseSelector> {
        match self.rule()? {
            DEFAULT => Some(CaseSelector::Default),
            NODE => Some(CaseSelector::Expression(self.expression_node()?)),
            _ => None,
        }
    }

    /// Reads a statement in the header of a `for`, if it is there.
    fn part(&mut self) -> Option<Option<StatementNode>> {
        self.optional(NODE, Self::statement_node)
    }
}
