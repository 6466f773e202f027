//! The attributes by their names, written by tools/tables/nodes.py from crates/wgsl_model/nodes.

/// Gives a macro the attributes with an expression, and those that are a name.
macro_rules! named_attributes {
    ($given:ident) => {
        $given! {
            with_argument:
                b"align" => Align,
                b"binding" => Binding,
                b"blend_src" => BlendSrc,
                b"group" => Group,
                b"id" => Id,
                b"location" => Location,
                b"size" => Size,
                b"if" => If,
                b"elif" => Elif,
            without_argument:
                b"const" => Const,
                b"invariant" => Invariant,
                b"must_use" => MustUse,
                b"vertex" => Vertex,
                b"fragment" => Fragment,
                b"compute" => Compute,
                b"else" => Else,
        }
    };
}
