//! Attributes and names of variants, written by tools/tables/nodes.py from crates/wgsl_model/nodes.

use super::*;

held_attributes! {
    GlobalDirective {
        attributes: Diagnostic Enable Requires,
    }
    GlobalDeclaration {
        attributes: Declaration TypeAlias Struct Function ConstAssert,
        ident: Declaration TypeAlias Struct Function,
        others: Void,
    }
    Statement {
        attributes: Compound Assignment Increment Decrement If Switch Loop For While Break
            Continue Return Discard FunctionCall ConstAssert Declaration,
        others: Void,
    }
}
