//! The values that are written as words of their own, and the operators.

use crate::nested::{Code, Coded, Copies};
use std::error::Error;
use std::fmt;
use std::str::FromStr;

/// The error for a text that is not a word of the values that were asked for.
#[derive(Clone, Copy, Debug, PartialEq, Eq, Hash)]
pub struct UnknownWord;

impl fmt::Display for UnknownWord {
    fn fmt(&self, f: &mut fmt::Formatter<'_>) -> fmt::Result {
        f.write_str("unknown word")
    }
}

impl Error for UnknownWord {}

/// Enums whose variants are written as words.
macro_rules! words {
    ($($(#[$doc:meta])* $name:ident {
        $($(#[$note:meta])* $variant:ident = $word:literal,)*
    })*) => {
    $(
        $(#[$doc])*
        #[derive(Clone, Copy, Debug, PartialEq, Eq, Hash)]
        pub enum $name {
            $($(#[$note])* $variant,)*
        }

        impl $name {
            /// Returns the word that it is written as, from which it is read by `str::parse`.
            ///
            /// ```
            #[doc = concat!("use centrelilac::syntax::", stringify!($name), ";\n")]
            $(#[doc = concat!(
                "assert_eq!(", stringify!($name), "::", stringify!($variant), ".word(), ",
                stringify!($word), ");\nassert_eq!(", stringify!($word), ".parse(), Ok(",
                stringify!($name), "::", stringify!($variant), "));"
            )])*
            #[doc = concat!("assert!(\"no word\".parse::<", stringify!($name), ">().is_err());")]
            /// ```
            pub fn word(self) -> &'static str {
                match self {
                    $($name::$variant => $word,)*
                }
            }
        }

        impl fmt::Display for $name {
            fn fmt(&self, f: &mut fmt::Formatter<'_>) -> fmt::Result {
                f.write_str(self.word())
            }
        }

        impl FromStr for $name {
            type Err = UnknownWord;

            fn from_str(word: &str) -> Result<Self, UnknownWord> {
                match word {
                    $($word => Ok($name::$variant),)*
                    _ => Err(UnknownWord),
                }
            }
        }

        #[cfg(test)]
        impl crate::packed::Made for $name {
            fn made(from: &mut crate::packed::Random) -> Self {
                let words = [$($name::$variant,)*];
                words[from.below(words.len())]
            }
        }

        impl Coded for $name {
            fn code<'t>(&'t self, code: &mut Code<'t>) {
                code.text(self.word());
            }

            fn copied<'t>(&'t self, _: &mut Copies<'t>) -> Self {
                *self
            }
        }
    )*
    };
}

words! {
    // Written by tools/tables/nodes.py from crates/wgsl_model/nodes.
    /// A severity: how a diagnostic is reported.
    DiagnosticSeverity {
        /// `error`.
        Error = "error",
        /// `warning`.
        Warning = "warning",
        /// `info`.
        Info = "info",
        /// `off`.
        Off = "off",
    }
    /// An address space: where a variable is stored.
    AddressSpace {
        /// `function`.
        Function = "function",
        /// `private`.
        Private = "private",
        /// `workgroup`.
        Workgroup = "workgroup",
        /// `uniform`.
        Uniform = "uniform",
        /// `storage`.
        Storage = "storage",
    }
    /// An access mode: how memory is used.
    AccessMode {
        /// `read`.
        Read = "read",
        /// `write`.
        Write = "write",
        /// `read_write`.
        ReadWrite = "read_write",
    }
    /// An operator before an operand.
    UnaryOperator {
        /// `!`.
        LogicalNegation = "!",
        /// `-`.
        Negation = "-",
        /// `~`.
        BitwiseComplement = "~",
        /// `&`.
        AddressOf = "&",
        /// `*`.
        Indirection = "*",
    }
    /// An operator between operands.
    BinaryOperator {
        /// `||`.
        ShortCircuitOr = "||",
        /// `&&`.
        ShortCircuitAnd = "&&",
        /// `+`.
        Addition = "+",
        /// `-`.
        Subtraction = "-",
        /// `*`.
        Multiplication = "*",
        /// `/`.
        Division = "/",
        /// `%`.
        Remainder = "%",
        /// `==`.
        Equality = "==",
        /// `!=`.
        Inequality = "!=",
        /// `<`.
        LessThan = "<",
        /// `<=`.
        LessThanEqual = "<=",
        /// `>`.
        GreaterThan = ">",
        /// `>=`.
        GreaterThanEqual = ">=",
        /// `|`.
        BitwiseOr = "|",
        /// `&`.
        BitwiseAnd = "&",
        /// `^`.
        BitwiseXor = "^",
        /// `<<`.
        ShiftLeft = "<<",
        /// `>>`.
        ShiftRight = ">>",
    }
    /// The operator of an assignment.
    AssignmentOperator {
        /// `=`.
        Equal = "=",
        /// `+=`.
        PlusEqual = "+=",
        /// `-=`.
        MinusEqual = "-=",
        /// `*=`.
        TimesEqual = "*=",
        /// `/=`.
        DivisionEqual = "/=",
        /// `%=`.
        ModuloEqual = "%=",
        /// `&=`.
        AndEqual = "&=",
        /// `|=`.
        OrEqual = "|=",
        /// `^=`.
        XorEqual = "^=",
        /// `>>=`.
        ShiftRightAssign = ">>=",
        /// `<<=`.
        ShiftLeftAssign = "<<=",
    }
    /// A built-in value, which a stage is given or gives.
    BuiltinValue {
        /// `vertex_index`.
        VertexIndex = "vertex_index",
        /// `instance_index`.
        InstanceIndex = "instance_index",
        /// `clip_distances`.
        ClipDistances = "clip_distances",
        /// `position`.
        Position = "position",
        /// `front_facing`.
        FrontFacing = "front_facing",
        /// `frag_depth`.
        FragDepth = "frag_depth",
        /// `sample_index`.
        SampleIndex = "sample_index",
        /// `sample_mask`.
        SampleMask = "sample_mask",
        /// `local_invocation_id`.
        LocalInvocationId = "local_invocation_id",
        /// `local_invocation_index`.
        LocalInvocationIndex = "local_invocation_index",
        /// `global_invocation_id`.
        GlobalInvocationId = "global_invocation_id",
        /// `workgroup_id`.
        WorkgroupId = "workgroup_id",
        /// `num_workgroups`.
        NumWorkgroups = "num_workgroups",
        /// `subgroup_invocation_id`.
        SubgroupInvocationId = "subgroup_invocation_id",
        /// `subgroup_size`.
        SubgroupSize = "subgroup_size",
    }
    /// An interpolation type: how a value is interpolated.
    InterpolationType {
        /// `perspective`.
        Perspective = "perspective",
        /// `linear`.
        Linear = "linear",
        /// `flat`.
        Flat = "flat",
    }
    /// An interpolation sampling: where a value is sampled.
    InterpolationSampling {
        /// `center`.
        Center = "center",
        /// `centroid`.
        Centroid = "centroid",
        /// `sample`.
        Sample = "sample",
        /// `first`.
        First = "first",
        /// `either`.
        Either = "either",
    }
}
