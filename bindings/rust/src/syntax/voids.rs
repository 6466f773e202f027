//! Trees without empty declarations and statements.

use super::*;

impl TranslationUnit {
    /// Removes the empty declarations of the module, and the empty statements of its blocks.
    ///
    /// ```
    /// let mut unit = centrelilac::parse("; fn f() { ; return; }")?;
    /// unit.remove_voids();
    /// assert_eq!(unit, centrelilac::parse("fn f() { return; }")?);
    /// # Ok::<(), centrelilac::Fault>(())
    /// ```
    pub fn remove_voids(&mut self) {
        self.global_declarations
            .retain(|declaration| !declaration.is_void());
        remove_in(self);
    }
}

impl GlobalDeclaration {
    /// Removes the empty statements of the blocks of a function.
    ///
    /// ```
    /// use centrelilac::syntax::GlobalDeclaration;
    ///
    /// let mut function: GlobalDeclaration = "fn f() { ; return; }".parse()?;
    /// function.remove_voids();
    /// assert_eq!("fn f() { return; }".parse(), Ok(function));
    /// # Ok::<(), centrelilac::Fault>(())
    /// ```
    pub fn remove_voids(&mut self) {
        remove_in(self);
    }
}

impl CompoundStatement {
    /// Removes the empty statements of the block, and of the blocks in it.
    ///
    /// ```
    /// use centrelilac::syntax::Statement;
    ///
    /// let mut block = "{ ; { ; } }".parse::<Statement>()?.unwrap_compound();
    /// block.remove_voids();
    /// assert_eq!("{ {} }".parse(), Ok(Statement::from(block)));
    /// # Ok::<(), centrelilac::Fault>(())
    /// ```
    pub fn remove_voids(&mut self) {
        remove_in(self);
    }
}

impl Statement {
    /// Removes the empty statements of the blocks in the statement.
    ///
    /// ```
    /// use centrelilac::syntax::Statement;
    ///
    /// let mut statement: Statement = "loop { ; continuing { ; } }".parse()?;
    /// statement.remove_voids();
    /// assert_eq!("loop { continuing {} }".parse(), Ok(statement));
    /// # Ok::<(), centrelilac::Fault>(())
    /// ```
    pub fn remove_voids(&mut self) {
        remove_in(self);
    }
}

/// Removes the empty statements of the blocks in a node, with little stack at any depth.
fn remove_in(node: &mut dyn Blocks) {
    let mut later = vec![node];
    while let Some(node) = later.pop() {
        node.open(&mut later);
    }
}

/// What blocks are in.
trait Blocks {
    /// Puts its parts with blocks on a list; a block removes its empty statements first.
    fn open<'t>(&'t mut self, later: &mut Vec<&'t mut dyn Blocks>);
}

impl Blocks for CompoundStatement {
    fn open<'t>(&'t mut self, later: &mut Vec<&'t mut dyn Blocks>) {
        self.statements.retain(|statement| !statement.is_void());
        self.statements.open(later);
    }
}

impl<T: Blocks + 'static> Blocks for Spanned<T> {
    fn open<'t>(&'t mut self, later: &mut Vec<&'t mut dyn Blocks>) {
        self.node_mut().open(later);
    }
}

impl<T: Blocks + 'static> Blocks for Vec<T> {
    fn open<'t>(&'t mut self, later: &mut Vec<&'t mut dyn Blocks>) {
        later.extend(self.iter_mut().map(|item| item as &mut dyn Blocks));
    }
}

impl<T: Blocks + 'static> Blocks for Option<T> {
    fn open<'t>(&'t mut self, later: &mut Vec<&'t mut dyn Blocks>) {
        later.extend(self.iter_mut().map(|node| node as &mut dyn Blocks));
    }
}

/// Structs with the fields in which blocks are.
macro_rules! struct_blocks {
    ($($name:ident: $($field:ident)*,)*) => {$(
        impl Blocks for $name {
            fn open<'t>(&'t mut self, later: &mut Vec<&'t mut dyn Blocks>) {
                $(later.push(&mut self.$field);)*
            }
        }
    )*};
}

/// Enums with the variants in which blocks are.
macro_rules! enum_blocks {
    ($($name:ident: $($variant:ident)*,)*) => {$(
        impl Blocks for $name {
            fn open<'t>(&'t mut self, later: &mut Vec<&'t mut dyn Blocks>) {
                match self {
                    $($name::$variant(node) => later.push(node),)*
                    _ => {}
                }
            }
        }
    )*};
}

// after the macros that it uses
mod node_blocks;
