//! Attributes, read from packed forms.

use super::*;
use crate::span::Spanned;
use crate::syntax::*;

impl Reader<'_> {
    /// Reads attributes, on a line of their own or before what they are on.
    #[inline]
    pub(super) fn attributes(&mut self) -> Option<Attributes> {
        match self.rule()? {
            NOTHING => Some(Vec::new()),
            rule => self.attributes_from(rule),
        }
    }

    /// Reads attributes, after the number of the first rule.
    fn attributes_from(&mut self, mut rule: u8) -> Option<Attributes> {
        let mut attributes = Vec::new();
        loop {
            let span = self.span()?;
            attributes.push(Spanned::new(self.attribute()?, span));
            match rule {
                ATTRIBUTES => rule = self.rule()?,
                ATTRIBUTES_LINE | ATTRIBUTES_SPACE => return Some(attributes),
                _ => return None,
            }
        }
    }

    /// Reads an attribute.
    fn attribute(&mut self) -> Option<Attribute> {
        Some(match self.rule()? {
            WITH_ARGUMENT => {
                let name = self.bytes()?;
                with_argument(name, self.expression_node()?)?
            }
            WITHOUT_ARGUMENT => without_argument(self.bytes()?)?,
            BUILTIN => Attribute::Builtin(self.word()?),
            DIAGNOSTIC => Attribute::Diagnostic(DiagnosticAttribute {
                severity: self.word()?,
                rule: self.text()?.to_owned(),
            }),
            INTERPOLATE => Attribute::Interpolate(InterpolateAttribute {
                ty: self.word()?,
                sampling: self.further_word()?,
            }),
            WORKGROUP_SIZE => Attribute::WorkgroupSize(WorkgroupSizeAttribute {
                x: self.expression_node()?,
                y: self.optional_node(FURTHER_NODE)?,
                z: self.optional_node(FURTHER_NODE)?,
            }),
            TYPE_ATTRIBUTE => Attribute::TypeConstraint(self.type_constraint()?),
            CUSTOM => Attribute::Custom(CustomAttribute {
                name: self.text()?.to_owned(),
                arguments: match self.has(ARGUMENTS)? {
                    true => Some(self.expressions()?),
                    false => None,
                },
            }),
            _ => return None,
        })
    }

    /// Reads a word that may be left out.
    pub(super) fn further_word<T: std::str::FromStr>(&mut self) -> Option<Option<T>> {
        Some(match self.has(FURTHER_WORD)? {
            true => Some(self.word()?),
            false => None,
        })
    }

    /// Reads a name, and the types that it may be.
    fn type_constraint(&mut self) -> Option<TypeConstraint> {
        self.expect(TYPE_CONSTRAINT)?;
        Some(TypeConstraint {
            ident: self.ident()?,
            variants: self.list((NOTHING, TYPES, PART), Self::ty)?,
        })
    }
}

/// What makes an attribute of its name.
macro_rules! attributes_of_names {
    (
        with_argument: $($with_name:literal => $with:ident,)*
        without_argument: $($name:literal => $without:ident,)*
    ) => {
        /// The attribute of a name with an expression.
        fn with_argument(name: &[u8], argument: ExpressionNode) -> Option<Attribute> {
            let attribute = match name {
                $($with_name => Attribute::$with,)*
                _ => return None,
            };
            Some(attribute(argument))
        }

        /// The attribute that is a name.
        fn without_argument(name: &[u8]) -> Option<Attribute> {
            Some(match name {
                $($name => Attribute::$without,)*
                _ => return None,
            })
        }
    };
}

named_attributes!(attributes_of_names);
