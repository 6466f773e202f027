//! Written by tools/tables/packed_rules.py from crates/wgsl_model_packed/rules: their numbers.

/// `false`.
pub(super) const FALSE: u8 = 0;

/// `true`.
pub(super) const TRUE: u8 = 1;

/// A whole number without a suffix, in decimal.
pub(super) const INT: u8 = 2;

/// A whole number with the suffix `i`.
pub(super) const I32: u8 = 3;

/// A whole number with the suffix `u`.
pub(super) const U32: u8 = 4;

/// A float without a suffix, by its spelling.
pub(super) const FLOAT: u8 = 5;

/// A float with the suffix `f`.
pub(super) const F32: u8 = 6;

/// A float with the suffix `h`.
pub(super) const F16: u8 = 7;

/// An expression in parentheses.
pub(super) const PARENTHESIZED: u8 = 8;

/// An operator and its operand.
pub(super) const UNARY: u8 = 9;

/// The same if both would be read as one operator without the space.
pub(super) const UNARY_APART: u8 = 10;

/// A call.
pub(super) const CALL: u8 = 11;

/// A type or identifier without a template, the last of some names, or a keyword.
pub(super) const NAME: u8 = 12;

/// A type or identifier with a template.
pub(super) const TEMPLATE: u8 = 13;

/// What is leftmost in a component, an element or an operation, and what follows it.
pub(super) const CHAIN: u8 = 14;

/// A component of what is before it, which has the span.
pub(super) const COMPONENT: u8 = 15;

/// The same after a whole number without a suffix.
pub(super) const COMPONENT_OF_INT: u8 = 16;

/// An element of what is before it.
pub(super) const INDEX: u8 = 17;

/// An operator after what is before it, and a right operand.
pub(super) const BINARY: u8 = 18;

/// What is left out, or the end of a list.
pub(super) const NOTHING: u8 = 19;

/// An expression before others.
pub(super) const NODES: u8 = 20;

/// The last of some expressions, or an expression that may be left out.
pub(super) const NODE: u8 = 21;

/// A part before others.
pub(super) const PARTS: u8 = 22;

/// The last of some parts.
pub(super) const PART: u8 = 23;

/// A type of `@type` before others.
pub(super) const TYPES: u8 = 24;

/// A name before others.
pub(super) const NAMES: u8 = 25;

/// An attribute before others.
pub(super) const ATTRIBUTES: u8 = 26;

/// The last attribute before a line break.
pub(super) const ATTRIBUTES_LINE: u8 = 27;

/// The last attribute before a space.
pub(super) const ATTRIBUTES_SPACE: u8 = 28;

/// An attribute with an expression, by its name.
pub(super) const WITH_ARGUMENT: u8 = 29;

/// An attribute that is a name.
pub(super) const WITHOUT_ARGUMENT: u8 = 30;

/// A built-in value.
pub(super) const BUILTIN: u8 = 31;

/// A severity and the name of a rule.
pub(super) const DIAGNOSTIC: u8 = 32;

/// How a value is interpolated.
pub(super) const INTERPOLATE: u8 = 33;

/// A word that may be left out, after another.
pub(super) const FURTHER_WORD: u8 = 34;

/// The sizes of a workgroup.
pub(super) const WORKGROUP_SIZE: u8 = 35;

/// An expression that may be left out, after another.
pub(super) const FURTHER_NODE: u8 = 36;

/// A name and types.
pub(super) const TYPE_ATTRIBUTE: u8 = 37;

/// A name, and the types that it may be.
pub(super) const TYPE_CONSTRAINT: u8 = 38;

/// An attribute of another name.
pub(super) const CUSTOM: u8 = 39;

/// Its arguments.
pub(super) const ARGUMENTS: u8 = 40;

/// A `var` with its template.
pub(super) const VAR: u8 = 41;

/// An address space, and an access mode.
pub(super) const VAR_TEMPLATE: u8 = 42;

/// The declaration of a value, without its `;`.
pub(super) const DECLARATION: u8 = 43;

/// Its type.
pub(super) const TYPED: u8 = 44;

/// Its first value.
pub(super) const INITIALIZER: u8 = 45;

/// An assignment, without its `;`, as further statements up to `const_assert`.
pub(super) const ASSIGNMENT: u8 = 46;

/// An increment.
pub(super) const INCREMENT: u8 = 47;

/// A decrement.
pub(super) const DECREMENT: u8 = 48;

/// `break`.
pub(super) const BREAK: u8 = 49;

/// `continue`.
pub(super) const CONTINUE: u8 = 50;

/// `discard`.
pub(super) const DISCARD: u8 = 51;

/// `return`.
pub(super) const RETURN: u8 = 52;

/// The value that is returned.
pub(super) const RETURNED: u8 = 53;

/// A call alone.
pub(super) const CALL_STATEMENT: u8 = 54;

/// `const_assert`.
pub(super) const CONST_ASSERT: u8 = 55;

/// `break if`.
pub(super) const BREAK_IF: u8 = 56;

/// The selector `default`.
pub(super) const DEFAULT: u8 = 57;

/// An empty statement or declaration by itself, of which attributes are printed.
pub(super) const VOID: u8 = 58;

/// A statement or a declaration with the `;` that ends it.
pub(super) const ENDED: u8 = 59;

/// The attributes of a block, and what is in it.
pub(super) const BLOCK: u8 = 60;

/// An empty statement or declaration, before others.
pub(super) const VOID_ITEM: u8 = 61;

/// A statement in a block, before others.
pub(super) const ITEM: u8 = 62;

/// The end of a block that has a statement other than `;`, or of clauses.
pub(super) const BLOCK_END: u8 = 63;

/// The end of another, or of no members.
pub(super) const EMPTY_END: u8 = 64;

/// The end of the statements in a `loop` or `continuing`.
pub(super) const OPENED_END: u8 = 65;

/// The same if there are none but `;`.
pub(super) const EMPTY_OPENED_END: u8 = 66;

/// An `if` with what follows it.
pub(super) const IF: u8 = 67;

/// Its first condition and block.
pub(super) const IF_CLAUSE: u8 = 68;

/// An `else if`.
pub(super) const ELSE_IF: u8 = 69;

/// An `else`.
pub(super) const ELSE: u8 = 70;

/// What may be left out, on a line of its own.
pub(super) const LINE: u8 = 71;

/// A part on a line of its own, before others.
pub(super) const LINES: u8 = 72;

/// A `switch`.
pub(super) const SWITCH: u8 = 73;

/// A clause of a `switch`.
pub(super) const SWITCH_CLAUSE: u8 = 74;

/// A `loop`.
pub(super) const LOOP: u8 = 75;

/// What may be left out, on an indented line of its own.
pub(super) const INDENTED_LINE: u8 = 76;

/// What a loop does after each turn.
pub(super) const CONTINUING: u8 = 77;

/// A `for`.
pub(super) const FOR: u8 = 78;

/// A `while`.
pub(super) const WHILE: u8 = 79;

/// A module.
pub(super) const UNIT: u8 = 80;

/// A directive before others.
pub(super) const DIRECTIVES: u8 = 81;

/// The last directive.
pub(super) const LAST_DIRECTIVE: u8 = 82;

/// A severity and the name of a rule.
pub(super) const DIAGNOSTIC_DIRECTIVE: u8 = 83;

/// The names of extensions.
pub(super) const ENABLE: u8 = 84;

/// The names of extensions.
pub(super) const REQUIRES: u8 = 85;

/// The first declaration that is not a `;`, before others.
pub(super) const FIRST_DECLARATION: u8 = 86;

/// A further one, before others.
pub(super) const DECLARATIONS: u8 = 87;

/// A further name for a type.
pub(super) const ALIAS: u8 = 88;

/// A structure.
pub(super) const STRUCT: u8 = 89;

/// A member before others.
pub(super) const MEMBERS: u8 = 90;

/// The last member.
pub(super) const LAST_MEMBER: u8 = 91;

/// A member or a parameter.
pub(super) const MEMBER: u8 = 92;

/// A function.
pub(super) const FUNCTION: u8 = 93;

/// What a function returns.
pub(super) const RESULT: u8 = 94;

/// The places of each rule, by its number: `$` for another rule, `#` for a text, `%` for a span.
pub(super) static PLACES: [&[u8]; 95] = [
    b"", b"", b"#", b"#", b"#", b"#", b"#", b"#", b"%$", b"#%$", b"#%$", b"$$", b"#", b"#$", b"$$",
    b"%#$", b"%#$", b"%%$$", b"%#%$$", b"", b"%$$", b"%$", b"$$", b"$", b"$$", b"#$", b"%$$",
    b"%$", b"%$", b"#%$", b"#", b"#", b"##", b"#$", b"#", b"%$$$", b"%$", b"$", b"#$", b"#$", b"$",
    b"$", b"#$", b"$$#$$", b"$", b"%$", b"$%$#%$", b"$%$", b"$%$", b"$", b"$", b"$", b"$$", b"%$",
    b"$$", b"$%$", b"$%$", b"", b"$", b"$", b"$$", b"%$", b"%$$", b"", b"", b"", b"", b"$$$$",
    b"%$$", b"$%$$", b"$$", b"$", b"$$", b"$%$$$", b"$$$", b"$$$", b"$", b"$$$", b"$$$$$", b"$%$$",
    b"$$", b"$$", b"$", b"$##", b"$$", b"$$", b"%$$", b"%$$", b"$#$", b"$#$", b"%$$", b"%$",
    b"$#$", b"$#$$$", b"$$",
];
