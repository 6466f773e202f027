//! The calls that return which variant an enum is, and what it holds.

/// The calls for variants, each with the text of an example. With `=> From` a variant is made from
/// what it holds too.
macro_rules! variants {
    ($($name:ident {
        $(
            $variant:ident $(($held:ty))?
            $is:ident $unwrap:ident = $text:literal $(=> $from:ident)?,
        )*
    })*) => {
        $(
            impl $name {
                $(
                    is_variant!($name $variant $is, made!($name $text));
                    unwrap_variant!($name $variant $(($held))? $unwrap, made!($name $text));
                )*
            }

            $(from_held!($name $variant ($($held)?) ($($from)?));)*
        )*
    };
}

/// The line of Rust that makes the tree of an example.
macro_rules! made {
    (Attribute $text:literal) => {
        concat!(
            "let tree = \"fn f() -> ",
            $text,
            " f32 {}\".parse::<GlobalDeclaration>()?\n    .unwrap_function().return_attributes\
            .remove(0).into_inner();"
        )
    };
    (CaseSelector $text:literal) => {
        concat!("let tree = CaseSelector::", $text, ";")
    };
    (DeclarationKind $text:literal) => {
        concat!("let tree = DeclarationKind::", $text, ";")
    };
    (LiteralExpression $text:literal) => {
        concat!(
            "let tree = \"",
            $text,
            "\".parse::<Expression>()?.unwrap_literal();"
        )
    };
    ($name:ident $text:literal) => {
        concat!(
            "let tree: ",
            stringify!($name),
            " = \"",
            $text,
            "\".parse()?;"
        )
    };
}

/// A variant made from what it holds, if that is asked for.
macro_rules! from_held {
    ($name:ident $variant:ident ($held:ty) (From)) => {
        impl From<$held> for $name {
            fn from(held: $held) -> Self {
                $name::$variant(held)
            }
        }
    };
    ($($other:tt)*) => {};
}

/// The call that returns whether it is a variant.
macro_rules! is_variant {
    ($name:ident $variant:ident $is:ident, $made:expr) => {
        #[doc = concat!(
            "Returns whether it is [`", stringify!($variant), "`](Self::", stringify!($variant),
            ")."
        )]
        ///
        /// ```
        /// use centrelilac::syntax::*;
        ///
        #[doc = $made]
        #[doc = concat!("assert!(tree.", stringify!($is), "());")]
        /// # Ok::<(), centrelilac::Fault>(())
        /// ```
        #[must_use]
        pub const fn $is(&self) -> bool {
            matches!(self, $name::$variant { .. })
        }
    };
}

/// The call that returns what a variant holds.
macro_rules! unwrap_variant {
    ($name:ident $variant:ident $(($held:ty))? $unwrap:ident, $made:expr) => {
        #[doc = concat!(
            "Returns what [`", stringify!($variant), "`](Self::", stringify!($variant), ") holds."
        )]
        ///
        /// # Panics
        ///
        /// If it is another variant.
        ///
        /// # Examples
        ///
        /// ```
        /// use centrelilac::syntax::*;
        ///
        #[doc = $made]
        #[doc = concat!(
            "let held: ", held_text!($($held)?), " = tree.", stringify!($unwrap), "();"
        )]
        /// # Ok::<(), centrelilac::Fault>(())
        /// ```
        #[track_caller]
        pub fn $unwrap(self) -> held_type!($($held)?) {
            match self {
                $name::$variant $((either!(held, $held)))? => {
                    $(either!(held, $held))?
                }
                _ => panic!(concat!("`", stringify!($unwrap), "` of another variant")),
            }
        }
    };
}

/// The type of what a variant holds.
macro_rules! held_type {
    () => {
        ()
    };
    ($held:ty) => {
        $held
    };
}

/// The same as a text.
macro_rules! held_text {
    () => {
        "()"
    };
    ($held:ty) => {
        stringify!($held)
    };
}
