//! The calls for variants, written by tools/tables/nodes.py from crates/wgsl_model/nodes.

use super::*;

variants! {
    GlobalDirective {
        Diagnostic(DiagnosticDirective)
            is_diagnostic unwrap_diagnostic = "diagnostic(off, a);" => From,
        Enable(EnableDirective) is_enable unwrap_enable = "enable f16;" => From,
        Requires(RequiresDirective) is_requires unwrap_requires = "requires a;" => From,
    }
    GlobalDeclaration {
        Void is_void unwrap_void = ";",
        Declaration(Declaration) is_declaration unwrap_declaration = "const a = 1;" => From,
        TypeAlias(TypeAlias) is_type_alias unwrap_type_alias = "alias A = B;" => From,
        Struct(Struct) is_struct unwrap_struct = "struct A { a: f32 }" => From,
        Function(Function) is_function unwrap_function = "fn f() {}" => From,
        ConstAssert(ConstAssert) is_const_assert unwrap_const_assert = "const_assert true;" => From,
    }
    DeclarationKind {
        Const is_const unwrap_const = "Const",
        Override is_override unwrap_override = "Override",
        Let is_let unwrap_let = "Let",
        Var(Option<(AddressSpace, Option<AccessMode>)>) is_var unwrap_var = "Var(None)",
    }
    Expression {
        Literal(LiteralExpression) is_literal unwrap_literal = "1" => From,
        Parenthesized(ParenthesizedExpression)
            is_parenthesized unwrap_parenthesized = "(a)" => From,
        NamedComponent(NamedComponentExpression)
            is_named_component unwrap_named_component = "a.b" => From,
        Indexing(IndexingExpression) is_indexing unwrap_indexing = "a[1]" => From,
        Unary(UnaryExpression) is_unary unwrap_unary = "-a" => From,
        Binary(BinaryExpression) is_binary unwrap_binary = "a + b" => From,
        FunctionCall(FunctionCall) is_function_call unwrap_function_call = "f(a)" => From,
        TypeOrIdentifier(TypeExpression)
            is_type_or_identifier unwrap_type_or_identifier = "a" => From,
    }
    LiteralExpression {
        Bool(bool) is_bool unwrap_bool = "true" => From,
        AbstractInt(i64) is_abstract_int unwrap_abstract_int = "1" => From,
        I32(i32) is_i32 unwrap_i32 = "1i" => From,
        U32(u32) is_u32 unwrap_u32 = "1u" => From,
        AbstractFloat(String) is_abstract_float unwrap_abstract_float = "1.5",
        F32(String) is_f32 unwrap_f32 = "1.5f",
        F16(String) is_f16 unwrap_f16 = "1.5h",
    }
    Statement {
        Void is_void unwrap_void = ";",
        Compound(CompoundStatement) is_compound unwrap_compound = "{}" => From,
        Assignment(AssignmentStatement) is_assignment unwrap_assignment = "a = 1;" => From,
        Increment(IncrementStatement) is_increment unwrap_increment = "a++;" => From,
        Decrement(DecrementStatement) is_decrement unwrap_decrement = "a--;" => From,
        If(IfStatement) is_if unwrap_if = "if a {}" => From,
        Switch(SwitchStatement) is_switch unwrap_switch = "switch a { default {} }" => From,
        Loop(LoopStatement) is_loop unwrap_loop = "loop {}" => From,
        For(ForStatement) is_for unwrap_for = "for (;;) {}" => From,
        While(WhileStatement) is_while unwrap_while = "while a {}" => From,
        Break(BreakStatement) is_break unwrap_break = "break;" => From,
        Continue(ContinueStatement) is_continue unwrap_continue = "continue;" => From,
        Return(ReturnStatement) is_return unwrap_return = "return 1;" => From,
        Discard(DiscardStatement) is_discard unwrap_discard = "discard;" => From,
        FunctionCall(FunctionCallStatement) is_function_call unwrap_function_call = "f(a);" => From,
        ConstAssert(ConstAssert) is_const_assert unwrap_const_assert = "const_assert true;" => From,
        Declaration(Declaration) is_declaration unwrap_declaration = "let a = 1;" => From,
    }
    CaseSelector {
        Default is_default unwrap_default = "Default",
        Expression(ExpressionNode)
            is_expression unwrap_expression = "Expression(Expression::from(1u32).into())" => From,
    }
    Attribute {
        Align(ExpressionNode) is_align unwrap_align = "@align(4)",
        Binding(ExpressionNode) is_binding unwrap_binding = "@binding(0)",
        BlendSrc(ExpressionNode) is_blend_src unwrap_blend_src = "@blend_src(1)",
        Group(ExpressionNode) is_group unwrap_group = "@group(0)",
        Id(ExpressionNode) is_id unwrap_id = "@id(1)",
        Location(ExpressionNode) is_location unwrap_location = "@location(0)",
        Size(ExpressionNode) is_size unwrap_size = "@size(16)",
        If(ExpressionNode) is_if unwrap_if = "@if(a)",
        Elif(ExpressionNode) is_elif unwrap_elif = "@elif(a)",
        Builtin(BuiltinValue) is_builtin unwrap_builtin = "@builtin(position)" => From,
        Const is_const unwrap_const = "@const",
        Invariant is_invariant unwrap_invariant = "@invariant",
        MustUse is_must_use unwrap_must_use = "@must_use",
        Vertex is_vertex unwrap_vertex = "@vertex",
        Fragment is_fragment unwrap_fragment = "@fragment",
        Compute is_compute unwrap_compute = "@compute",
        Else is_else unwrap_else = "@else",
        Diagnostic(DiagnosticAttribute)
            is_diagnostic unwrap_diagnostic = "@diagnostic(off, a)" => From,
        Interpolate(InterpolateAttribute)
            is_interpolate unwrap_interpolate = "@interpolate(flat)" => From,
        WorkgroupSize(WorkgroupSizeAttribute)
            is_workgroup_size unwrap_workgroup_size = "@workgroup_size(8)" => From,
        TypeConstraint(TypeConstraint)
            is_type_constraint unwrap_type_constraint = "@type(a, f32)" => From,
        Custom(CustomAttribute) is_custom unwrap_custom = "@other" => From,
    }
}
