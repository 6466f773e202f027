//! Prints modules, whose files are named, as one. Each may use what another declares. A name that
//! an earlier module declares too gets a number at its end.

use centrelilac::syntax::*;
use centrelilac::visit::{Accept, Visit, VisitMut};
use std::collections::{HashMap, HashSet};
use std::process::ExitCode;

/// All names of modules.
#[derive(Default)]
struct Names(HashSet<Ident>);

impl<'t> Visit<'t> for Names {
    fn visit_ident(&mut self, ident: &'t Ident) {
        self.0.insert(ident.clone());
    }
}

impl Names {
    /// Returns a new name: another one with a number at its end.
    fn numbered(&self, name: &Ident) -> Ident {
        let mut numbered = (2u64..).map(|number| Ident::new(format!("{name}_{number}")));
        let found = numbered.find(|name| !self.0.contains(name));
        found.expect("there are more numbers than names")
    }
}

/// Renames what is declared and its uses, also where a function declares the name again.
struct Rename(HashMap<Ident, Ident>);

impl Rename {
    /// Gives names a new one each, which none of the modules has.
    fn new(renamed: &HashSet<Ident>, modules: [&TranslationUnit; 2]) -> Self {
        let mut names = Names::default();
        for module in modules {
            module.accept(&mut names);
        }
        let pair = |name: &Ident| (name.clone(), names.numbered(name));
        Rename(renamed.iter().map(pair).collect())
    }
}

impl VisitMut for Rename {
    fn visit_ident_mut(&mut self, ident: &mut Ident) {
        if let Some(new) = self.0.get(ident) {
            *ident = new.clone();
        }
    }

    // members and components have names of their own

    fn visit_struct_member_mut(&mut self, member: &mut StructMember) {
        member.attributes.accept_mut(self);
        member.ty.accept_mut(self);
    }

    fn visit_named_component_expression_mut(&mut self, node: &mut NamedComponentExpression) {
        node.base.accept_mut(self);
    }
}

/// Returns the names that a module declares.
fn declared(unit: &TranslationUnit) -> HashSet<Ident> {
    let declarations = unit.global_declarations.iter();
    declarations.filter_map(SyntaxNode::ident).collect()
}

/// Puts a module at the end of another.
pub fn link(first: &mut TranslationUnit, mut second: TranslationUnit) {
    let clashes = &declared(first) & &declared(&second);
    second.accept_mut(&mut Rename::new(&clashes, [first, &second]));
    let new = |it: &GlobalDirective| !first.global_directives.contains(it);
    second.global_directives.retain(new);
    first.global_directives.extend(second.global_directives);
    first.global_declarations.extend(second.global_declarations);
}

/// Returns the module in a file.
fn read(name: &str) -> Result<TranslationUnit, String> {
    let text = std::fs::read_to_string(name).map_err(|error| format!("{name}: {error}"))?;
    centrelilac::parse(&text).map_err(|fault| format!("{name}: {fault}"))
}

fn main() -> ExitCode {
    let mut linked = TranslationUnit::new();
    let mut names = std::env::args().skip(1);
    match names.try_for_each(|name| read(&name).map(|module| link(&mut linked, module))) {
        Ok(()) => {
            print!("{linked}");
            ExitCode::SUCCESS
        }
        Err(message) => {
            eprintln!("{message}");
            ExitCode::FAILURE
        }
    }
}
