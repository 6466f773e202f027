//! Modules, their directives and their declarations, read from packed forms.

use super::*;
use crate::packed::Unpacked;
use crate::span::Spanned;
use crate::syntax::*;

impl Unpacked for TranslationUnit {
    fn unpack(from: &mut Reader<'_>) -> Option<Self> {
        from.expect(UNIT)?;
        let rules = (NOTHING, DIRECTIVES, LAST_DIRECTIVE);
        Some(TranslationUnit {
            global_directives: from.list(rules, GlobalDirective::unpack)?,
            global_declarations: from.declarations()?,
        })
    }
}

impl Unpacked for GlobalDirective {
    fn unpack(from: &mut Reader<'_>) -> Option<Self> {
        let (rule, attributes) = (from.rule()?, from.attributes()?);
        Some(match rule {
            DIAGNOSTIC_DIRECTIVE => GlobalDirective::Diagnostic(DiagnosticDirective {
                attributes,
                severity: from.word()?,
                rule_name: from.text()?.to_owned(),
            }),
            ENABLE => GlobalDirective::Enable(EnableDirective {
                attributes,
                extensions: from.names()?,
            }),
            REQUIRES => GlobalDirective::Requires(RequiresDirective {
                attributes,
                extensions: from.names()?,
            }),
            _ => return None,
        })
    }
}

impl Unpacked for GlobalDeclaration {
    fn unpack(from: &mut Reader<'_>) -> Option<Self> {
        from.global_declaration().map(|declaration| *declaration)
    }
}

impl Reader<'_> {
    /// Reads names one after another.
    fn names(&mut self) -> Option<Vec<String>> {
        self.list((NOTHING, NAMES, NAME), |it| it.text().map(str::to_owned))
    }

    /// Reads the declarations of a module, and their end.
    fn declarations(&mut self) -> Option<Vec<GlobalDeclarationNode>> {
        let mut declarations = Vec::new();
        loop {
            match self.rule()? {
                FIRST_DECLARATION | DECLARATIONS => {
                    let span = self.span()?;
                    declarations.push(Spanned::new_boxed(self.global_declaration()?, span));
                }
                VOID_ITEM => {
                    let span = self.span()?;
                    declarations.push(Spanned::new(GlobalDeclaration::Void, span));
                }
                NOTHING => return Some(declarations),
                _ => return None,
            }
        }
    }

    /// Reads a declaration of a module.
    fn global_declaration(&mut self) -> Option<Box<GlobalDeclaration>> {
        let mut rule = self.rule()?;
        if rule == ENDED {
            rule = self.rule()?;
        }
        let attributes = self.attributes()?;
        match rule {
            FUNCTION => self.function_after(attributes),
            STRUCT => self.struct_after(attributes),
            DECLARATION => {
                let declaration = self.declaration_after(attributes)?;
                Some(Box::new(GlobalDeclaration::Declaration(declaration)))
            }
            ALIAS => {
                let (ident, ty) = (self.ident()?, self.ty()?);
                Some(Box::new(GlobalDeclaration::TypeAlias(TypeAlias {
                    attributes,
                    ident,
                    ty,
                })))
            }
            CONST_ASSERT => {
                let expression = self.expression_node()?;
                Some(Box::new(GlobalDeclaration::ConstAssert(ConstAssert {
                    attributes,
                    expression,
                })))
            }
            VOID if attributes.is_empty() => Some(Box::new(GlobalDeclaration::Void)),
            _ => None,
        }
    }

    /// Reads a structure, after its attributes.
    fn struct_after(&mut self, attributes: Attributes) -> Option<Box<GlobalDeclaration>> {
        let ident = self.ident()?;
        let members = self.list((EMPTY_END, MEMBERS, LAST_MEMBER), |it| {
            let span = it.span()?;
            Some(Spanned::new(it.struct_member()?, span))
        })?;
        Some(Box::new(GlobalDeclaration::Struct(Struct {
            attributes,
            ident,
            members,
        })))
    }

    /// Reads a member of a structure.
    fn struct_member(&mut self) -> Option<StructMember> {
        self.expect(MEMBER)?;
        Some(StructMember {
            attributes: self.attributes()?,
            ident: self.ident()?,
            ty: self.ty()?,
        })
    }

    /// Reads a function, after its attributes.
    fn function_after(&mut self, attributes: Attributes) -> Option<Box<GlobalDeclaration>> {
        let ident = self.ident()?;
        let parameters = self.list((NOTHING, PARTS, PART), Self::parameter)?;
        let (mut return_attributes, mut return_type) = (Vec::new(), None);
        if self.has(RESULT)? {
            return_attributes = self.attributes()?;
            return_type = Some(self.ty()?);
        }
        let body = self.block()?;
        Some(Box::new(GlobalDeclaration::Function(Function {
            attributes,
            ident,
            parameters,
            return_attributes,
            return_type,
            body,
        })))
    }

    /// Reads a parameter of a function.
    fn parameter(&mut self) -> Option<FormalParameter> {
        self.expect(MEMBER)?;
        Some(FormalParameter {
            attributes: self.attributes()?,
            ident: self.ident()?,
            ty: self.ty()?,
        })
    }
}
