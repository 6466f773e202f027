//! What all nodes have in common.

use super::*;

/// A node. One without a span, a name or attributes has none.
///
/// ```
/// use centrelilac::syntax::{Attribute, SyntaxNode};
///
/// fn is_entry_point<N: SyntaxNode>(node: &N) -> bool {
///     let stages = [Attribute::Vertex, Attribute::Fragment, Attribute::Compute];
///     stages.iter().any(|stage| node.contains_attribute(stage))
/// }
///
/// let unit = centrelilac::parse("@vertex fn f() {} fn g() {}")?;
/// let is_entry_point: Vec<_> = unit.global_declarations.iter().map(is_entry_point).collect();
/// assert_eq!(is_entry_point, [true, false]);
/// # Ok::<(), centrelilac::Fault>(())
/// ```
pub trait SyntaxNode {
    /// Returns where the node is: only a [`Spanned`] has it.
    ///
    /// ```
    /// use centrelilac::syntax::{Span, SyntaxNode};
    ///
    /// let unit = centrelilac::parse("alias A = B;")?;
    /// let declaration = &unit.global_declarations[0];
    /// assert_eq!(SyntaxNode::span(declaration), Some(Span::new(0..12)));
    /// assert_eq!(SyntaxNode::span(declaration.node()), None);
    /// # Ok::<(), centrelilac::Fault>(())
    /// ```
    fn span(&self) -> Option<Span> {
        None
    }

    /// Returns a copy of the name that a declaration, a member or a parameter declares.
    ///
    /// ```
    /// use centrelilac::syntax::{Ident, SyntaxNode};
    ///
    /// let unit = centrelilac::parse("fn f() {} const_assert true;")?;
    /// let names: Vec<_> = unit.global_declarations.iter().map(SyntaxNode::ident).collect();
    /// assert_eq!(names, [Some(Ident::from("f")), None]);
    /// # Ok::<(), centrelilac::Fault>(())
    /// ```
    fn ident(&self) -> Option<Ident> {
        None
    }

    /// Returns the attributes before the node.
    ///
    /// ```
    /// use centrelilac::syntax::{GlobalDeclaration, SyntaxNode};
    ///
    /// let function: GlobalDeclaration = "@vertex @must_use fn f() {}".parse()?;
    /// assert_eq!(function.attributes().len(), 2);
    /// assert!(function.attributes()[1].is_must_use());
    /// # Ok::<(), centrelilac::Fault>(())
    /// ```
    fn attributes(&self) -> &[AttributeNode] {
        &[]
    }

    /// Returns the attributes before the node, which may be changed.
    ///
    /// ```
    /// use centrelilac::syntax::{Attribute, GlobalDeclaration, SyntaxNode};
    ///
    /// let mut function: GlobalDeclaration = "@vertex fn f() {}".parse()?;
    /// *function.attributes_mut()[0] = Attribute::Compute;
    /// assert_eq!("@compute fn f() {}".parse(), Ok(function));
    /// # Ok::<(), centrelilac::Fault>(())
    /// ```
    fn attributes_mut(&mut self) -> &mut [AttributeNode] {
        &mut []
    }

    /// Returns whether an attribute is before the node.
    ///
    /// ```
    /// use centrelilac::syntax::{Attribute, GlobalDeclaration, SyntaxNode};
    ///
    /// let function: GlobalDeclaration = "@vertex fn f() {}".parse()?;
    /// assert!(function.contains_attribute(&Attribute::Vertex));
    /// assert!(!function.contains_attribute(&Attribute::Fragment));
    /// # Ok::<(), centrelilac::Fault>(())
    /// ```
    fn contains_attribute(&self, attribute: &Attribute) -> bool {
        self.attributes()
            .iter()
            .any(|node| node.node() == attribute)
    }

    /// Removes the attributes before the node of which a predicate is false.
    ///
    /// ```
    /// use centrelilac::syntax::{GlobalDeclaration, SyntaxNode};
    ///
    /// let mut function: GlobalDeclaration = "@vertex @must_use fn f() {}".parse()?;
    /// function.retain_attributes_mut(|attribute| attribute.is_vertex());
    /// assert_eq!("@vertex fn f() {}".parse(), Ok(function));
    /// # Ok::<(), centrelilac::Fault>(())
    /// ```
    fn retain_attributes_mut<F>(&mut self, predicate: F)
    where
        F: FnMut(&mut Attribute) -> bool,
    {
        let _ = predicate;
    }
}

impl<T: SyntaxNode> SyntaxNode for Spanned<T> {
    fn span(&self) -> Option<Span> {
        Some(self.span)
    }

    fn ident(&self) -> Option<Ident> {
        self.node().ident()
    }

    fn attributes(&self) -> &[AttributeNode] {
        self.node().attributes()
    }

    fn attributes_mut(&mut self) -> &mut [AttributeNode] {
        self.node_mut().attributes_mut()
    }

    fn retain_attributes_mut<F>(&mut self, predicate: F)
    where
        F: FnMut(&mut Attribute) -> bool,
    {
        self.node_mut().retain_attributes_mut(predicate);
    }
}

impl SyntaxNode for Expression {}
impl SyntaxNode for LiteralExpression {}

/// Enums of nodes with attributes: the variants that hold one, those that hold one with a name, if
/// the enum has it, and the others.
macro_rules! held_attributes {
    ($($name:ident {
        attributes: $($variant:ident)*,
        $(ident: $($named:ident)*,)?
        $(others: $($other:ident)*,)?
    })*) => {$(
        impl SyntaxNode for $name {
            $(
                fn ident(&self) -> Option<Ident> {
                    match self {
                        $($name::$named(node) => node.ident(),)*
                        _ => None,
                    }
                }
            )?

            fn attributes(&self) -> &[AttributeNode] {
                match self {
                    $($name::$variant(node) => &node.attributes,)*
                    $($($name::$other { .. } => &[],)*)?
                }
            }

            fn attributes_mut(&mut self) -> &mut [AttributeNode] {
                match self {
                    $($name::$variant(node) => &mut node.attributes,)*
                    $($($name::$other { .. } => &mut [],)*)?
                }
            }

            fn retain_attributes_mut<F>(&mut self, predicate: F)
            where
                F: FnMut(&mut Attribute) -> bool,
            {
                match self {
                    $($name::$variant(node) => node.retain_attributes_mut(predicate),)*
                    $($($name::$other { .. } => {})*)?
                }
            }
        }
    )*};
}
