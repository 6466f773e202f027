//! The macros that declare the types of the trees, each with what follows from its fields.

/// Structs.
macro_rules! structs {
    ($($(#[$doc:meta])* $name:ident {
        $(#[$first_note:meta])* $first:ident: $first_type:ty,
        $($(#[$note:meta])* $field:ident: $type:ty,)*
    })*) => {
    $(
        $(#[$doc])*
        #[derive(Clone, Debug, PartialEq, Eq, Hash)]
        pub struct $name {
            $(#[$first_note])*
            pub $first: $first_type,
            $($(#[$note])* pub $field: $type,)*
        }

        impl Coded for $name {
            fn code<'t>(&'t self, code: &mut Code<'t>) {
                self.$first.code(code);
                $(self.$field.code(code);)*
            }

            fn copied<'t>(&'t self, copies: &mut Copies<'t>) -> Self {
                $name {
                    $first: self.$first.copied(copies),
                    $($field: self.$field.copied(copies),)*
                }
            }
        }

        impl Walk for $name {
            fn walk<'t, V: Visit<'t> + ?Sized>(&'t self, visitor: &mut V) {
                $(if_left!($field, self.$field.accept(visitor));)*
                self.$first.accept(visitor);
                $(unless_left!($field, self.$field.accept(visitor));)*
            }

            fn walk_mut<V: VisitMut + ?Sized>(&mut self, visitor: &mut V) {
                $(if_left!($field, self.$field.accept_mut(visitor));)*
                self.$first.accept_mut(visitor);
                $(unless_left!($field, self.$field.accept_mut(visitor));)*
            }
        }

        impl SyntaxNode for $name {
            declared_ident!($first $($field)*);
            own_attributes!($first);
        }

        #[cfg(test)]
        impl crate::packed::Made for $name {
            fn made(from: &mut crate::packed::Random) -> Self {
                $name {
                    $first: crate::packed::Made::made(from),
                    $($field: crate::packed::Made::made(from),)*
                }
            }
        }
    )*
    };
}

/// Enums.
macro_rules! enums {
    ($($(#[$doc:meta])* $name:ident {
        $($(#[$note:meta])* $variant:ident $(($held:ty))?,)*
    })*) => {
    $(
        $(#[$doc])*
        #[derive(Clone, Debug, PartialEq, Eq, Hash)]
        pub enum $name {
            $($(#[$note])* $variant $(($held))?,)*
        }

        impl Coded for $name {
            fn code<'t>(&'t self, code: &mut Code<'t>) {
                match self {$(
                    $name::$variant $((either!(held, $held)))? => {
                        code.text(stringify!($variant));
                        $(either!(held.code(code), $held);)?
                    }
                )*}
            }

            fn copied<'t>(&'t self, copies: &mut Copies<'t>) -> Self {
                match self {$(
                    $name::$variant $((either!(held, $held)))? => {
                        $name::$variant $((either!(held.copied(copies), $held)))?
                    }
                )*}
            }
        }

        impl Walk for $name {
            fn walk<'t, V: Visit<'t> + ?Sized>(&'t self, visitor: &mut V) {
                match self {$(
                    $name::$variant $((either!(held, $held)))? => {
                        #[cfg(test)]
                        super::kinds::note(stringify!($name), stringify!($variant));
                        $(either!(held.accept(visitor), $held);)?
                    }
                )*}
            }

            fn walk_mut<V: VisitMut + ?Sized>(&mut self, visitor: &mut V) {
                match self {$(
                    $name::$variant $((either!(held, $held)))? => {
                        $(either!(held.accept_mut(visitor), $held);)?
                    }
                )*}
            }
        }

        #[cfg(test)]
        impl crate::packed::Made for $name {
            fn made(from: &mut crate::packed::Random) -> Self {
                #[allow(dead_code)]
                enum Variant {
                    $($variant,)*
                }
                let variants = [$(Variant::$variant as usize,)*];
                let chosen = from.below(variants.len());
                $(
                    if chosen == Variant::$variant as usize {
                        return $name::$variant $((<$held as crate::packed::Made>::made(from)))?;
                    }
                )*
                unreachable!("one of the variants is chosen")
            }
        }
    )*

        /// The variants, each after its enum.
        #[cfg(test)]
        pub(super) const VARIANTS: &[(&str, &str)] =
            &[$($((stringify!($name), stringify!($variant)),)*)*];
    };
}

/// What is said of a variant that holds something: a pattern or an expression.
macro_rules! either {
    ($name:ident, $held:ty) => {
        $name
    };
    ($said:expr, $held:ty) => {
        $said
    };
}

/// Does something for a field that is declared last and written first in a text.
macro_rules! if_left {
    (base, $done:expr) => {
        $done
    };
    (left, $done:expr) => {
        $done
    };
    ($other:ident, $done:expr) => {};
}

/// Does something for every other field.
macro_rules! unless_left {
    (base, $done:expr) => {};
    (left, $done:expr) => {};
    ($other:ident, $done:expr) => {
        $done
    };
}

/// The methods of [`SyntaxNode`] for a struct whose first field is its attributes.
macro_rules! own_attributes {
    (attributes) => {
        fn attributes(&self) -> &[AttributeNode] {
            &self.attributes
        }

        fn attributes_mut(&mut self) -> &mut [AttributeNode] {
            &mut self.attributes
        }

        fn retain_attributes_mut<F>(&mut self, mut predicate: F)
        where
            F: FnMut(&mut Attribute) -> bool,
        {
            self.attributes.retain_mut(|node| predicate(node))
        }
    };
    ($other:ident) => {};
}

/// The method of [`SyntaxNode`] for a declaration: a struct with attributes and a name.
macro_rules! declared_ident {
    (attributes ident $($field:ident)*) => {
        fn ident(&self) -> Option<Ident> {
            Some(self.ident.clone())
        }
    };
    (attributes $other:ident $($field:ident)*) => {
        declared_ident!(attributes $($field)*);
    };
    ($($field:ident)*) => {};
}
