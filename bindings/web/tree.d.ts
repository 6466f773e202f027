// The types of the trees of tree.js, written by tools/tables/tree_types.py from
// crates/wgsl_model/nodes. docs/TREE.md describes trees.

/** Where a node starts and ends: in bytes, or in what the offsets are that `treeOf` was given. */
export interface Span {
  start: number;
  end: number;
}

/** A node with its span. */
export type Spanned<T> = T & { span: Span };

/** A node of which spans need not be there. */
export type Unspanned<T> = T extends (infer Item)[]
  ? Unspanned<Item>[]
  : T extends object
    ? { [Field in keyof T as Field extends 'span' ? never : Field]: Unspanned<T[Field]> } & {
        span?: Span;
      }
    : T;

/** A module: its directives, then its declarations. */
export interface TranslationUnit {
  type: 'TranslationUnit';
  /** The directives. */
  global_directives: GlobalDirective[];
  /** The declarations. */
  global_declarations: Spanned<GlobalDeclaration>[];
}

/** A directive of a module. */
export type GlobalDirective = DiagnosticDirective | EnableDirective | RequiresDirective;

/** A declaration of a module. */
export type GlobalDeclaration =
  | VoidGlobalDeclaration
  | Declaration
  | TypeAlias
  | Struct
  | Function
  | ConstAssert;

/** A `;` alone. */
export interface VoidGlobalDeclaration {
  type: 'VoidGlobalDeclaration';
}

/** A severity: how a diagnostic is reported. */
export type DiagnosticSeverity = 'error' | 'warning' | 'info' | 'off';

/** `diagnostic(severity, rule_name);`: a severity and the name of a rule. */
export interface DiagnosticDirective {
  type: 'DiagnosticDirective';
  /** Its attributes. */
  attributes: Spanned<Attribute>[];
  /** The severity. */
  severity: DiagnosticSeverity;
  /** The name of the rule; the parts of a name in two are joined by a `.`. */
  rule_name: string;
}

/** `enable extensions;`: the names of extensions. */
export interface EnableDirective {
  type: 'EnableDirective';
  /** Its attributes. */
  attributes: Spanned<Attribute>[];
  /** The names of the extensions. */
  extensions: string[];
}

/** `requires extensions;`: the names of extensions. */
export interface RequiresDirective {
  type: 'RequiresDirective';
  /** Its attributes. */
  attributes: Spanned<Attribute>[];
  /** The names of the extensions. */
  extensions: string[];
}

/** An address space: where a variable is stored. */
export type AddressSpace = 'function' | 'private' | 'workgroup' | 'uniform' | 'storage';

/** An access mode: how memory is used. */
export type AccessMode = 'read' | 'write' | 'read_write';

/** A structure. */
export interface Struct {
  type: 'Struct';
  /** Its attributes. */
  attributes: Spanned<Attribute>[];
  /** The name. */
  ident: string;
  /** The members. */
  members: Spanned<StructMember>[];
}

/** A member of a structure. */
export interface StructMember {
  type: 'StructMember';
  /** Its attributes. */
  attributes: Spanned<Attribute>[];
  /** The name. */
  ident: string;
  /** The type. */
  ty: TypeExpression;
}

/** A further name for a type, `alias ident = ty;` */
export interface TypeAlias {
  type: 'TypeAlias';
  /** Its attributes. */
  attributes: Spanned<Attribute>[];
  /** The name. */
  ident: string;
  /** The type. */
  ty: TypeExpression;
}

/** The declaration of a value. */
export interface Declaration {
  type: 'Declaration';
  /** Its attributes. */
  attributes: Spanned<Attribute>[];
  /** Which kind of value it is. */
  kind: DeclarationKind;
  /** The name. */
  ident: string;
  /** The type, if it is there. */
  ty: TypeExpression | null;
  /** The value that it begins with, if it is there. */
  initializer: Spanned<Expression> | null;
}

/** Which kind of value is declared; a `var` with its template. */
export type DeclarationKind =
  | ConstDeclarationKind
  | OverrideDeclarationKind
  | LetDeclarationKind
  | VarDeclarationKind;

/** `const`. */
export interface ConstDeclarationKind {
  type: 'ConstDeclarationKind';
}

/** `override`. */
export interface OverrideDeclarationKind {
  type: 'OverrideDeclarationKind';
}

/** `let`. */
export interface LetDeclarationKind {
  type: 'LetDeclarationKind';
}

/** `var`, with the address space and the access mode of its template. */
export interface VarDeclarationKind {
  type: 'VarDeclarationKind';
  /** An address space: where a variable is stored. */
  address_space: AddressSpace | null;
  /** An access mode: how memory is used. */
  access_mode: AccessMode | null;
}

/** An expression. */
export type Expression =
  | LiteralExpression
  | ParenthesizedExpression
  | NamedComponentExpression
  | IndexingExpression
  | UnaryExpression
  | BinaryExpression
  | FunctionCall
  | TypeExpression;

/** A literal, as `1`, `true` or `2.5f`. A float is its spelling without the suffix. */
export type LiteralExpression =
  | BoolLiteralExpression
  | AbstractIntLiteralExpression
  | I32LiteralExpression
  | U32LiteralExpression
  | AbstractFloatLiteralExpression
  | F32LiteralExpression
  | F16LiteralExpression;

/** `true` or `false`. */
export interface BoolLiteralExpression {
  type: 'BoolLiteralExpression';
  /** Whether it is `true`. */
  value: boolean;
}

/** A whole number without a suffix, as `1`. */
export interface AbstractIntLiteralExpression {
  type: 'AbstractIntLiteralExpression';
  /** The number, by its digits in decimal. */
  value: string;
}

/** A whole number with the suffix `i`. */
export interface I32LiteralExpression {
  type: 'I32LiteralExpression';
  /** The number, by its digits in decimal. */
  value: string;
}

/** A whole number with the suffix `u`. */
export interface U32LiteralExpression {
  type: 'U32LiteralExpression';
  /** The number, by its digits in decimal. */
  value: string;
}

/** A float without a suffix, as `1.5`. */
export interface AbstractFloatLiteralExpression {
  type: 'AbstractFloatLiteralExpression';
  /** The spelling, without the suffix. */
  value: string;
}

/** A float with the suffix `f`. */
export interface F32LiteralExpression {
  type: 'F32LiteralExpression';
  /** The spelling, without the suffix. */
  value: string;
}

/** A float with the suffix `h`. */
export interface F16LiteralExpression {
  type: 'F16LiteralExpression';
  /** The spelling, without the suffix. */
  value: string;
}

/** An expression in parentheses. */
export interface ParenthesizedExpression {
  type: 'ParenthesizedExpression';
  /** The expression. */
  expression: Spanned<Expression>;
}

/** A component by its name, as `base.component`. */
export interface NamedComponentExpression {
  type: 'NamedComponentExpression';
  /** The name of the component. */
  component: string;
  /** What it is taken of. */
  base: Spanned<Expression>;
}

/** An element, as `base[index]`. */
export interface IndexingExpression {
  type: 'IndexingExpression';
  /** The index. */
  index: Spanned<Expression>;
  /** What it is taken of. */
  base: Spanned<Expression>;
}

/** A call, as `f(a, b)`. */
export interface FunctionCall {
  type: 'FunctionCall';
  /** The name of what is called, or of the type that is made. */
  ty: TypeExpression;
  /** The arguments. */
  arguments: Spanned<Expression>[];
}

/** An operator and its operand, as `-a`. */
export interface UnaryExpression {
  type: 'UnaryExpression';
  /** The operator. */
  operator: UnaryOperator;
  /** The operand. */
  operand: Spanned<Expression>;
}

/** An operator before an operand. */
export type UnaryOperator = '!' | '-' | '~' | '&' | '*';

/** Two operands and an operator between them, as `a + b`. */
export interface BinaryExpression {
  type: 'BinaryExpression';
  /** The operator. */
  operator: BinaryOperator;
  /** The right operand. */
  right: Spanned<Expression>;
  /** The left operand. */
  left: Spanned<Expression>;
}

/** An operator between operands. */
export type BinaryOperator =
  | '||'
  | '&&'
  | '+'
  | '-'
  | '*'
  | '/'
  | '%'
  | '=='
  | '!='
  | '<'
  | '<='
  | '>'
  | '>='
  | '|'
  | '&'
  | '^'
  | '<<'
  | '>>';

/** A type or an identifier: a name with or without a template, as `a` or `array<f32, 2>`. */
export interface TypeExpression {
  type: 'TypeExpression';
  /** The name. */
  ident: string;
  /** The arguments of its template, if it has one. */
  template_args: TemplateArg[] | null;
}

/** An argument of a template. */
export interface TemplateArg {
  type: 'TemplateArg';
  /** The expression. */
  expression: Spanned<Expression>;
}

/** A statement. */
export type Statement =
  | VoidStatement
  | CompoundStatement
  | AssignmentStatement
  | IncrementStatement
  | DecrementStatement
  | IfStatement
  | SwitchStatement
  | LoopStatement
  | ForStatement
  | WhileStatement
  | BreakStatement
  | ContinueStatement
  | ReturnStatement
  | DiscardStatement
  | FunctionCallStatement
  | ConstAssert
  | Declaration;

/** A `;` alone. */
export interface VoidStatement {
  type: 'VoidStatement';
}

/** Attributes, and statements in braces. */
export interface CompoundStatement {
  type: 'CompoundStatement';
  /** Its attributes. */
  attributes: Spanned<Attribute>[];
  /** The statements. */
  statements: Spanned<Statement>[];
}

/** An assignment, as `lhs += rhs;`. */
export interface AssignmentStatement {
  type: 'AssignmentStatement';
  /** Its attributes. */
  attributes: Spanned<Attribute>[];
  /** The operator. */
  operator: AssignmentOperator;
  /** The left side. */
  lhs: Spanned<Expression>;
  /** The right side. */
  rhs: Spanned<Expression>;
}

/** The operator of an assignment. */
export type AssignmentOperator =
  | '='
  | '+='
  | '-='
  | '*='
  | '/='
  | '%='
  | '&='
  | '|='
  | '^='
  | '>>='
  | '<<=';

/** `expression++;` */
export interface IncrementStatement {
  type: 'IncrementStatement';
  /** Its attributes. */
  attributes: Spanned<Attribute>[];
  /** The expression. */
  expression: Spanned<Expression>;
}

/** `expression--;` */
export interface DecrementStatement {
  type: 'DecrementStatement';
  /** Its attributes. */
  attributes: Spanned<Attribute>[];
  /** The expression. */
  expression: Spanned<Expression>;
}

/** An `if`, with what follows it. */
export interface IfStatement {
  type: 'IfStatement';
  /** Its attributes. */
  attributes: Spanned<Attribute>[];
  /** The first condition and its block. */
  if_clause: IfClause;
  /** The further conditions, in order. */
  else_if_clauses: ElseIfClause[];
  /** What is done where none holds, if it is there. */
  else_clause: ElseClause | null;
}

/** The first condition of an `if`, and its block. */
export interface IfClause {
  type: 'IfClause';
  /** The expression. */
  expression: Spanned<Expression>;
  /** The block. */
  body: CompoundStatement;
}

/** An `else if`. */
export interface ElseIfClause {
  type: 'ElseIfClause';
  /** Its attributes. */
  attributes: Spanned<Attribute>[];
  /** The expression. */
  expression: Spanned<Expression>;
  /** The block. */
  body: CompoundStatement;
}

/** An `else`. */
export interface ElseClause {
  type: 'ElseClause';
  /** Its attributes. */
  attributes: Spanned<Attribute>[];
  /** The block. */
  body: CompoundStatement;
}

/** A `switch`. */
export interface SwitchStatement {
  type: 'SwitchStatement';
  /** Its attributes. */
  attributes: Spanned<Attribute>[];
  /** The expression. */
  expression: Spanned<Expression>;
  /** The attributes of the braces. */
  body_attributes: Spanned<Attribute>[];
  /** The clauses. */
  clauses: SwitchClause[];
}

/** A clause of a `switch`. */
export interface SwitchClause {
  type: 'SwitchClause';
  /** Its attributes. */
  attributes: Spanned<Attribute>[];
  /** What it selects. */
  case_selectors: CaseSelector[];
  /** The block. */
  body: CompoundStatement;
}

/** What a clause of a `switch` selects. */
export type CaseSelector = DefaultCaseSelector | ExpressionCaseSelector;

/** `default`. */
export interface DefaultCaseSelector {
  type: 'DefaultCaseSelector';
}

/** A value. */
export interface ExpressionCaseSelector {
  type: 'ExpressionCaseSelector';
  /** The expression. */
  value: Spanned<Expression>;
}

/** A `loop`. */
export interface LoopStatement {
  type: 'LoopStatement';
  /** Its attributes. */
  attributes: Spanned<Attribute>[];
  /** The block. */
  body: CompoundStatement;
  /** What is done after each turn, if it is there. */
  continuing: ContinuingStatement | null;
}

/** A `for`. */
export interface ForStatement {
  type: 'ForStatement';
  /** Its attributes. */
  attributes: Spanned<Attribute>[];
  /** The statement before the first turn, if it is there. */
  initializer: Spanned<Statement> | null;
  /** The condition for another turn, if it is there. */
  condition: Spanned<Expression> | null;
  /** The statement after each turn, if it is there. */
  update: Spanned<Statement> | null;
  /** The block. */
  body: CompoundStatement;
}

/** A `while`. */
export interface WhileStatement {
  type: 'WhileStatement';
  /** Its attributes. */
  attributes: Spanned<Attribute>[];
  /** The condition. */
  condition: Spanned<Expression>;
  /** The block. */
  body: CompoundStatement;
}

/** `break;` */
export interface BreakStatement {
  type: 'BreakStatement';
  /** Its attributes. */
  attributes: Spanned<Attribute>[];
}

/** `break if expression;`, the last of a `continuing` block. */
export interface BreakIfStatement {
  type: 'BreakIfStatement';
  /** Its attributes. */
  attributes: Spanned<Attribute>[];
  /** The expression. */
  expression: Spanned<Expression>;
}

/** `continue;` */
export interface ContinueStatement {
  type: 'ContinueStatement';
  /** Its attributes. */
  attributes: Spanned<Attribute>[];
}

/** What a loop does after each turn. */
export interface ContinuingStatement {
  type: 'ContinuingStatement';
  /** Its attributes. */
  attributes: Spanned<Attribute>[];
  /** The block. */
  body: CompoundStatement;
  /** The `break if` that ends the block, if it is there. */
  break_if: BreakIfStatement | null;
}

/** `return;` or `return expression;` */
export interface ReturnStatement {
  type: 'ReturnStatement';
  /** Its attributes. */
  attributes: Spanned<Attribute>[];
  /** The expression, if it is there. */
  expression: Spanned<Expression> | null;
}

/** `discard;` */
export interface DiscardStatement {
  type: 'DiscardStatement';
  /** Its attributes. */
  attributes: Spanned<Attribute>[];
}

/** A call alone. */
export interface FunctionCallStatement {
  type: 'FunctionCallStatement';
  /** Its attributes. */
  attributes: Spanned<Attribute>[];
  /** The call. */
  call: FunctionCall;
}

/** `const_assert expression;` */
export interface ConstAssert {
  type: 'ConstAssert';
  /** Its attributes. */
  attributes: Spanned<Attribute>[];
  /** The expression. */
  expression: Spanned<Expression>;
}

/** A function. */
export interface Function {
  type: 'Function';
  /** Its attributes. */
  attributes: Spanned<Attribute>[];
  /** The name. */
  ident: string;
  /** The parameters. */
  parameters: FormalParameter[];
  /** The attributes of the result. */
  return_attributes: Spanned<Attribute>[];
  /** The type of the result, if it is there. */
  return_type: TypeExpression | null;
  /** The block. */
  body: CompoundStatement;
}

/** A parameter of a function. */
export interface FormalParameter {
  type: 'FormalParameter';
  /** Its attributes. */
  attributes: Spanned<Attribute>[];
  /** The name. */
  ident: string;
  /** The type. */
  ty: TypeExpression;
}

/** An attribute, as `@align(4)`. */
export type Attribute =
  | AlignAttribute
  | BindingAttribute
  | BlendSrcAttribute
  | GroupAttribute
  | IdAttribute
  | LocationAttribute
  | SizeAttribute
  | IfAttribute
  | ElifAttribute
  | BuiltinAttribute
  | ConstAttribute
  | InvariantAttribute
  | MustUseAttribute
  | VertexAttribute
  | FragmentAttribute
  | ComputeAttribute
  | ElseAttribute
  | DiagnosticAttribute
  | InterpolateAttribute
  | WorkgroupSizeAttribute
  | TypeConstraint
  | CustomAttribute;

/** `@align(expression)`. */
export interface AlignAttribute {
  type: 'AlignAttribute';
  /** The expression. */
  value: Spanned<Expression>;
}

/** `@binding(expression)`. */
export interface BindingAttribute {
  type: 'BindingAttribute';
  /** The expression. */
  value: Spanned<Expression>;
}

/** `@blend_src(expression)`. */
export interface BlendSrcAttribute {
  type: 'BlendSrcAttribute';
  /** The expression. */
  value: Spanned<Expression>;
}

/** `@group(expression)`. */
export interface GroupAttribute {
  type: 'GroupAttribute';
  /** The expression. */
  value: Spanned<Expression>;
}

/** `@id(expression)`. */
export interface IdAttribute {
  type: 'IdAttribute';
  /** The expression. */
  value: Spanned<Expression>;
}

/** `@location(expression)`. */
export interface LocationAttribute {
  type: 'LocationAttribute';
  /** The expression. */
  value: Spanned<Expression>;
}

/** `@size(expression)`. */
export interface SizeAttribute {
  type: 'SizeAttribute';
  /** The expression. */
  value: Spanned<Expression>;
}

/** `@if(expression)`. */
export interface IfAttribute {
  type: 'IfAttribute';
  /** The expression. */
  value: Spanned<Expression>;
}

/** `@elif(expression)`. */
export interface ElifAttribute {
  type: 'ElifAttribute';
  /** The expression. */
  value: Spanned<Expression>;
}

/** `@builtin(value)`. */
export interface BuiltinAttribute {
  type: 'BuiltinAttribute';
  /** The built-in value. */
  value: BuiltinValue;
}

/** `@const`. */
export interface ConstAttribute {
  type: 'ConstAttribute';
}

/** `@invariant`. */
export interface InvariantAttribute {
  type: 'InvariantAttribute';
}

/** `@must_use`. */
export interface MustUseAttribute {
  type: 'MustUseAttribute';
}

/** `@vertex`. */
export interface VertexAttribute {
  type: 'VertexAttribute';
}

/** `@fragment`. */
export interface FragmentAttribute {
  type: 'FragmentAttribute';
}

/** `@compute`. */
export interface ComputeAttribute {
  type: 'ComputeAttribute';
}

/** `@else`. */
export interface ElseAttribute {
  type: 'ElseAttribute';
}

/** A built-in value, which a stage is given or gives. */
export type BuiltinValue =
  | 'vertex_index'
  | 'instance_index'
  | 'clip_distances'
  | 'position'
  | 'front_facing'
  | 'frag_depth'
  | 'sample_index'
  | 'sample_mask'
  | 'local_invocation_id'
  | 'local_invocation_index'
  | 'global_invocation_id'
  | 'workgroup_id'
  | 'num_workgroups'
  | 'subgroup_invocation_id'
  | 'subgroup_size';

/** `@diagnostic(severity, rule)`: a severity and the name of a rule. */
export interface DiagnosticAttribute {
  type: 'DiagnosticAttribute';
  /** The severity. */
  severity: DiagnosticSeverity;
  /** The name of the rule; the parts of a name in two are joined by a `.`. */
  rule: string;
}

/** `@interpolate(ty, sampling)`: how a value is interpolated. */
export interface InterpolateAttribute {
  type: 'InterpolateAttribute';
  /** The type of the interpolation. */
  ty: InterpolationType;
  /** Where it is sampled, if it is there. */
  sampling: InterpolationSampling | null;
}

/** An interpolation type: how a value is interpolated. */
export type InterpolationType = 'perspective' | 'linear' | 'flat';

/** An interpolation sampling: where a value is sampled. */
export type InterpolationSampling = 'center' | 'centroid' | 'sample' | 'first' | 'either';

/** `@workgroup_size(x, y, z)`: the sizes of a workgroup. */
export interface WorkgroupSizeAttribute {
  type: 'WorkgroupSizeAttribute';
  /** The first size. */
  x: Spanned<Expression>;
  /** The second size, if it is there. */
  y: Spanned<Expression> | null;
  /** The third size, if it is there. */
  z: Spanned<Expression> | null;
}

/** `@type(ident, variants)`: a name, and the types that it may be. */
export interface TypeConstraint {
  type: 'TypeConstraint';
  /** The name. */
  ident: string;
  /** The types. */
  variants: TypeExpression[];
}

/** An attribute of another name. */
export interface CustomAttribute {
  type: 'CustomAttribute';
  /** The name. */
  name: string;
  /** The arguments, if it has parentheses. */
  arguments: Spanned<Expression>[] | null;
}

/** A node of any type. */
export type Node =
  | TranslationUnit
  | VoidGlobalDeclaration
  | DiagnosticDirective
  | EnableDirective
  | RequiresDirective
  | Struct
  | StructMember
  | TypeAlias
  | Declaration
  | ConstDeclarationKind
  | OverrideDeclarationKind
  | LetDeclarationKind
  | VarDeclarationKind
  | BoolLiteralExpression
  | AbstractIntLiteralExpression
  | I32LiteralExpression
  | U32LiteralExpression
  | AbstractFloatLiteralExpression
  | F32LiteralExpression
  | F16LiteralExpression
  | ParenthesizedExpression
  | NamedComponentExpression
  | IndexingExpression
  | FunctionCall
  | UnaryExpression
  | BinaryExpression
  | TypeExpression
  | TemplateArg
  | VoidStatement
  | CompoundStatement
  | AssignmentStatement
  | IncrementStatement
  | DecrementStatement
  | IfStatement
  | IfClause
  | ElseIfClause
  | ElseClause
  | SwitchStatement
  | SwitchClause
  | DefaultCaseSelector
  | ExpressionCaseSelector
  | LoopStatement
  | ForStatement
  | WhileStatement
  | BreakStatement
  | BreakIfStatement
  | ContinueStatement
  | ContinuingStatement
  | ReturnStatement
  | DiscardStatement
  | FunctionCallStatement
  | ConstAssert
  | Function
  | FormalParameter
  | AlignAttribute
  | BindingAttribute
  | BlendSrcAttribute
  | GroupAttribute
  | IdAttribute
  | LocationAttribute
  | SizeAttribute
  | IfAttribute
  | ElifAttribute
  | BuiltinAttribute
  | ConstAttribute
  | InvariantAttribute
  | MustUseAttribute
  | VertexAttribute
  | FragmentAttribute
  | ComputeAttribute
  | ElseAttribute
  | DiagnosticAttribute
  | InterpolateAttribute
  | WorkgroupSizeAttribute
  | TypeConstraint
  | CustomAttribute;

/** The kinds of trees that are read from a text. */
export interface Kinds {
  TranslationUnit: TranslationUnit;
  GlobalDirective: GlobalDirective;
  GlobalDeclaration: GlobalDeclaration;
  Statement: Statement;
  Expression: Expression;
}

/**
 * Returns the tree that a packed form is of. Its spans are in bytes, or what `offsets` has for each
 * byte offset. Throws a `RangeError` if the bytes are not a packed form of the kind.
 */
export function treeOf(bytes: Uint8Array, offsets?: ArrayLike<number> | null): TranslationUnit;
export function treeOf<Kind extends keyof Kinds>(
  bytes: Uint8Array,
  offsets: ArrayLike<number> | null | undefined,
  kind: Kind,
): Kinds[Kind];

/**
 * Returns the packed form of a node, with its spans as they are, and 0 to 0 for those that are not
 * there. Throws a `TypeError` for what is no node.
 */
export function packed(node: Unspanned<Node>): Uint8Array;
