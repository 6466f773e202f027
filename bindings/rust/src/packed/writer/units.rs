//! Modules, their directives and their declarations, written as packed forms.

use super::*;
use crate::syntax::*;

impl Packed for TranslationUnit {
    fn pack<'t>(&'t self, out: &mut Writer<'t>) {
        out.rule(UNIT);
        let rules = (NOTHING, DIRECTIVES, LAST_DIRECTIVE);
        out.list(rules, &self.global_directives, |out, it| it.pack(out));
        let mut rule = FIRST_DECLARATION;
        for declaration in &self.global_declarations {
            if declaration.is_void() {
                out.rule(VOID_ITEM);
                out.span(declaration.span);
            } else {
                out.rule(rule);
                out.span(declaration.span);
                declaration.node().pack(out);
                rule = DECLARATIONS;
            }
        }
        out.rule(NOTHING);
    }
}

impl Packed for GlobalDirective {
    fn pack<'t>(&'t self, out: &mut Writer<'t>) {
        match self {
            GlobalDirective::Diagnostic(directive) => directive.pack(out),
            GlobalDirective::Enable(directive) => directive.pack(out),
            GlobalDirective::Requires(directive) => directive.pack(out),
        }
    }
}

impl Packed for DiagnosticDirective {
    fn pack<'t>(&'t self, out: &mut Writer<'t>) {
        out.rule(DIAGNOSTIC_DIRECTIVE);
        out.attribute_line(&self.attributes);
        out.text(self.severity.word());
        out.text(&self.rule_name);
    }
}

impl Packed for EnableDirective {
    fn pack<'t>(&'t self, out: &mut Writer<'t>) {
        out.rule(ENABLE);
        out.attribute_line(&self.attributes);
        out.names(&self.extensions);
    }
}

impl Packed for RequiresDirective {
    fn pack<'t>(&'t self, out: &mut Writer<'t>) {
        out.rule(REQUIRES);
        out.attribute_line(&self.attributes);
        out.names(&self.extensions);
    }
}

impl Packed for GlobalDeclaration {
    fn pack<'t>(&'t self, out: &mut Writer<'t>) {
        match self {
            GlobalDeclaration::Void => {
                out.rule(ENDED);
                out.rule(VOID);
                out.rule(NOTHING);
            }
            GlobalDeclaration::Declaration(declaration) => declaration.pack_ended(out),
            GlobalDeclaration::TypeAlias(alias) => alias.pack(out),
            GlobalDeclaration::Struct(structure) => structure.pack(out),
            GlobalDeclaration::Function(function) => function.pack(out),
            GlobalDeclaration::ConstAssert(assert) => assert.pack_ended(out),
        }
    }
}

impl Packed for TypeAlias {
    fn pack<'t>(&'t self, out: &mut Writer<'t>) {
        out.rule(ALIAS);
        out.attribute_line(&self.attributes);
        out.ident(&self.ident);
        self.ty.pack(out);
    }
}

impl Packed for Struct {
    fn pack<'t>(&'t self, out: &mut Writer<'t>) {
        out.rule(STRUCT);
        out.attribute_line(&self.attributes);
        out.ident(&self.ident);
        let rules = (EMPTY_END, MEMBERS, LAST_MEMBER);
        out.list(rules, &self.members, |out, member| {
            out.span(member.span);
            member.node().pack(out);
        });
    }
}

impl Packed for StructMember {
    fn pack<'t>(&'t self, out: &mut Writer<'t>) {
        out.rule(MEMBER);
        out.attribute_line(&self.attributes);
        out.ident(&self.ident);
        self.ty.pack(out);
    }
}

impl Packed for Function {
    fn pack<'t>(&'t self, out: &mut Writer<'t>) {
        out.rule(FUNCTION);
        out.attribute_line(&self.attributes);
        out.ident(&self.ident);
        let rules = (NOTHING, PARTS, PART);
        out.list(rules, &self.parameters, |out, it| it.pack(out));
        out.optional(RESULT, &self.return_type, |out, ty| {
            out.attributes_before(&self.return_attributes);
            ty.pack(out);
        });
        self.body.pack(out);
    }
}

impl Packed for FormalParameter {
    fn pack<'t>(&'t self, out: &mut Writer<'t>) {
        out.rule(MEMBER);
        out.attributes_before(&self.attributes);
        out.ident(&self.ident);
        self.ty.pack(out);
    }
}

impl<'t> Writer<'t> {
    /// Writes names one after another.
    fn names(&mut self, names: &'t [String]) {
        self.list((NOTHING, NAMES, NAME), names, |out, name| out.text(name));
    }
}
