//! Attributes, written as packed forms.

use super::*;
use crate::syntax::*;

/// What writes an attribute.
macro_rules! packed_attributes {
    (
        with_argument: $($with_name:literal => $with:ident,)*
        without_argument: $($name:literal => $without:ident,)*
    ) => {
        impl Packed for Attribute {
            fn pack<'t>(&'t self, out: &mut Writer<'t>) {
                match self {
                    $(Attribute::$with(argument) => out.with_argument($with_name, argument),)*
                    $(Attribute::$without => out.without_argument($name),)*
                    Attribute::Builtin(value) => out.builtin(*value),
                    Attribute::Diagnostic(diagnostic) => out.diagnostic(diagnostic),
                    Attribute::Interpolate(interpolate) => out.interpolate(interpolate),
                    Attribute::WorkgroupSize(size) => out.workgroup_size(size),
                    Attribute::TypeConstraint(constraint) => {
                        out.rule(TYPE_ATTRIBUTE);
                        constraint.pack(out);
                    }
                    Attribute::Custom(custom) => out.custom(custom),
                }
            }
        }
    };
}

named_attributes!(packed_attributes);

impl Packed for TypeConstraint {
    fn pack<'t>(&'t self, out: &mut Writer<'t>) {
        out.rule(TYPE_CONSTRAINT);
        out.ident(&self.ident);
        out.list((NOTHING, TYPES, PART), &self.variants, |out, ty| {
            ty.pack(out);
        });
    }
}

impl<'t> Writer<'t> {
    /// Writes an attribute with an expression.
    fn with_argument(&mut self, name: &[u8], argument: &'t ExpressionNode) {
        self.rule(WITH_ARGUMENT);
        self.bytes(name);
        self.expression_node(argument);
    }

    /// Writes an attribute that is a name.
    fn without_argument(&mut self, name: &[u8]) {
        self.rule(WITHOUT_ARGUMENT);
        self.bytes(name);
    }

    /// Writes a `@builtin`.
    fn builtin(&mut self, value: BuiltinValue) {
        self.rule(BUILTIN);
        self.text(value.word());
    }

    /// Writes a `@diagnostic`.
    fn diagnostic(&mut self, diagnostic: &DiagnosticAttribute) {
        self.rule(DIAGNOSTIC);
        self.text(diagnostic.severity.word());
        self.text(&diagnostic.rule);
    }

    /// Writes an `@interpolate`.
    fn interpolate(&mut self, interpolate: &'t InterpolateAttribute) {
        self.rule(INTERPOLATE);
        self.text(interpolate.ty.word());
        self.optional(FURTHER_WORD, &interpolate.sampling, |out, sampling| {
            out.text(sampling.word());
        });
    }

    /// Writes a `@workgroup_size`.
    fn workgroup_size(&mut self, size: &'t WorkgroupSizeAttribute) {
        self.rule(WORKGROUP_SIZE);
        self.expression_node(&size.x);
        self.optional_node(FURTHER_NODE, &size.y);
        self.optional_node(FURTHER_NODE, &size.z);
    }

    /// Writes an attribute of another name.
    fn custom(&mut self, custom: &'t CustomAttribute) {
        self.rule(CUSTOM);
        self.text(&custom.name);
        self.optional(ARGUMENTS, &custom.arguments, |out, it| out.expressions(it));
    }

    /// Writes attributes on a line of their own.
    #[inline]
    pub(super) fn attribute_line(&mut self, attributes: &'t [AttributeNode]) {
        if attributes.is_empty() {
            return self.rule(NOTHING);
        }
        self.some_attributes(ATTRIBUTES_LINE, attributes);
    }

    /// Writes attributes before what they are on.
    #[inline]
    pub(super) fn attributes_before(&mut self, attributes: &'t [AttributeNode]) {
        if attributes.is_empty() {
            return self.rule(NOTHING);
        }
        self.some_attributes(ATTRIBUTES_SPACE, attributes);
    }

    /// Writes attributes, of which the last has a rule of its own.
    fn some_attributes(&mut self, last: u8, attributes: &'t [AttributeNode]) {
        self.list((NOTHING, ATTRIBUTES, last), attributes, |out, attribute| {
            out.span(attribute.span);
            attribute.node().pack(out);
        });
    }
}
