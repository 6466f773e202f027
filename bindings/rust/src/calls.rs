//! What can be asked of a text.

use crate::fault::Fault;
use crate::ffi::{
    begins_with_list_call, bytes_call, lists_call, nesting_call, tokens_call, Answer, Call, Place,
    PlacedKind, Said,
};
use crate::form::Source;
use crate::kind::TokenKind;
use crate::packed::from_packed;
use crate::span::Span;
use crate::syntax::TranslationUnit;

/// `WGSL_DONE` of `wgsl.h`.
pub(crate) const DONE: u32 = 0;

/// `WGSL_REFUSED` of `wgsl.h`.
pub(crate) const REFUSED: u32 = 1;

/// `WGSL_TOO_SMALL` of `wgsl.h`.
pub(crate) const TOO_SMALL: u32 = 4;

/// `WGSL_TOO_DEEP` of `wgsl.h`.
pub(crate) const TOO_DEEP: u32 = 7;

/// How many levels deep a text may nest, as [`nesting`] counts them, for the calls that take no other
/// number: 1 MB of stack is enough for it, and a thread that std starts has 2 MB. Of a text that
/// nests deeper, the fault is [`TooDeep`](crate::FaultKind::TooDeep), unless one before that place
/// is found; a few more levels may be accepted. The calls whose names end with `_within` take
/// another number, for which their thread must have enough stack.
///
/// # Examples
///
/// ```
/// use centrelilac::{check, check_within, FaultKind, DEPTH};
///
/// let nested = |levels: usize| format!("const a = {}1{};", "(".repeat(levels), ")".repeat(levels));
/// assert!(check(&nested(DEPTH)).is_ok());
///
/// let fault = check(&nested(10 * DEPTH)).unwrap_err();
/// assert_eq!(fault.kind, FaultKind::TooDeep);
/// assert_eq!(fault.message, format!("nests deeper than {DEPTH} levels"));
/// assert_eq!(fault.column, 11 + DEPTH);
///
/// assert!(check_within(&nested(2 * DEPTH), 2 * DEPTH).is_ok());
/// ```
pub const DEPTH: usize = 200;

/// The least size of a buffer, in which the texts of most faults fit.
const LEAST_SIZE: usize = 1024;

/// Makes a call that writes bytes, with a buffer of about a size, and again if that was too small.
/// Returns what it wrote too, unless there is no memory for the buffer.
fn written(call: Call<'_>, text: &[u8], size: usize) -> Option<(Said, Vec<u8>)> {
    let (mut buffer, mut size) = (Vec::new(), size.max(LEAST_SIZE));
    loop {
        buffer.try_reserve(size).ok()?;
        let said = bytes_call(call, text, &mut buffer);
        size = said.answer.size;
        if size <= buffer.capacity() {
            return Some((said, buffer));
        }
    }
}

/// Makes a call that writes items, with a buffer for some, and again if that was too small.
/// Returns what it wrote too, unless there is no memory for the buffer.
fn listed<T: Clone + Default>(
    mut size: usize,
    call: impl Fn(&mut [T]) -> Said,
) -> Option<(Said, Vec<T>)> {
    let mut items = Vec::new();
    loop {
        items.try_reserve_exact(size).ok()?;
        items.resize(size, T::default());
        let said = call(&mut items);
        if said.status != TOO_SMALL {
            items.truncate(said.answer.size);
            return Some((said, items));
        }
        items.clear();
        size = said.answer.size;
    }
}

/// The bytes that a call wrote as a text.
fn utf8(bytes: Vec<u8>) -> String {
    String::from_utf8(bytes).expect("the library writes UTF-8")
}

/// The answer of a call and the text that it writes, with a buffer of about a size at first.
pub(crate) fn answered(call: Call<'_>, text: &str, size: usize) -> Result<(Answer, String), Fault> {
    answered_bytes(call, text, size).map(|(answer, bytes)| (answer, utf8(bytes)))
}

/// The same with the bytes that it writes.
fn answered_bytes(call: Call<'_>, text: &str, size: usize) -> Result<(Answer, Vec<u8>), Fault> {
    let (said, bytes) = written(call, text.as_bytes(), size).ok_or_else(Fault::out_of_memory)?;
    match said.status {
        DONE => Ok((said.answer, bytes)),
        REFUSED => Err(Fault::told(text, &said.answer, &bytes)),
        TOO_DEEP => Err(Fault::too_deep(text, &said.answer, &bytes)),
        _ => Err(Fault::out_of_memory()),
    }
}

/// The text that a call writes, with a buffer of about a size at first.
pub(crate) fn text_of(call: Call<'_>, text: &str, size: usize) -> Result<String, Fault> {
    answered(call, text, size).map(|(_, text)| text)
}

/// Returns the canonical text of a module: without comments, blank lines and the author's line
/// breaks.
///
/// # Errors
///
/// The fault of the text, or that allocation fails.
///
/// # Examples
///
/// ```
/// let text = centrelilac::format("fn f(){/* nothing */return;}")?;
/// assert_eq!(text, "fn f() {\n    return;\n}\n");
/// # Ok::<(), centrelilac::Fault>(())
/// ```
pub fn format(text: &str) -> Result<String, Fault> {
    format_within(text, DEPTH)
}

/// Returns the canonical text of a module as [`format`] does, which may nest a number of levels deep.
///
/// # Errors
///
/// The fault of the text, or that allocation fails.
///
/// # Examples
///
/// ```
/// assert_eq!(centrelilac::format_within("const a=((1));", 2)?, "const a = ((1));\n");
/// assert!(centrelilac::format_within("const a=(((1)));", 2).is_err());
/// # Ok::<(), centrelilac::Fault>(())
/// ```
pub fn format_within(text: &str, depth: usize) -> Result<String, Fault> {
    text_of(Call::Format(depth), text, text.len() + text.len() / 2)
}

/// Checks whether a text is a module.
///
/// # Errors
///
/// The fault of the text, or that allocation fails.
///
/// # Examples
///
/// ```
/// let fault = centrelilac::check("const a = 1;\nconst b 2;").unwrap_err();
/// assert_eq!((fault.line, fault.column), (2, 9));
/// assert!(fault.expected.contains(&"=".to_string()));
/// ```
pub fn check(text: &str) -> Result<(), Fault> {
    check_within(text, DEPTH)
}

/// Checks whether a text is a module as [`check`] does, which may nest a number of levels deep.
///
/// # Errors
///
/// The fault of the text, or that allocation fails.
///
/// # Examples
///
/// ```
/// let fault = centrelilac::check_within("const a = (((1)));", 2).unwrap_err();
/// assert_eq!(fault.to_string(), "line 1, column 13: nests deeper than 2 levels");
/// ```
pub fn check_within(text: &str, depth: usize) -> Result<(), Fault> {
    text_of(Call::Check(depth), text, 0).map(drop)
}

/// Checks whether a text is a module of a smaller language, the dialect. Its names are identifiers
/// only, also after `@`, its sums have no `--`, and fewer nodes have attributes; what attributes,
/// `var` templates and diagnostics contain is not checked.
///
/// # Errors
///
/// The fault of the text, or that allocation fails.
///
/// # Examples
///
/// ```
/// assert!(centrelilac::check("@align fn f() {}").is_err());
/// assert!(centrelilac::recognize("@align fn f() {}").is_ok());
/// assert!(centrelilac::recognize("const a").is_err());
/// ```
pub fn recognize(text: &str) -> Result<(), Fault> {
    recognize_within(text, DEPTH)
}

/// Checks whether a text is a module of the dialect as [`recognize`] does, which may nest a number of
/// levels deep.
///
/// # Errors
///
/// The fault of the text, or that allocation fails.
///
/// # Examples
///
/// ```
/// assert!(centrelilac::recognize_within("const a = ((1));", 2).is_ok());
/// assert!(centrelilac::recognize_within("const a = ((1));", 1).is_err());
/// ```
pub fn recognize_within(text: &str, depth: usize) -> Result<(), Fault> {
    text_of(Call::Recognize(depth), text, 0).map(drop)
}

/// Reads the tree of a module. A directive, a declaration, a statement or an expression is read by
/// `str::parse`, as `text.parse::<Expression>()`.
///
/// # Errors
///
/// The fault of the text, or that allocation fails.
///
/// # Examples
///
/// ```
/// use centrelilac::syntax::GlobalDeclaration;
///
/// let unit = centrelilac::parse("alias A = B;")?;
/// let GlobalDeclaration::TypeAlias(alias) = &*unit.global_declarations[0] else {
///     panic!("no alias");
/// };
/// assert_eq!(alias.ident.name(), "A");
/// # Ok::<(), centrelilac::Fault>(())
/// ```
pub fn parse(text: &str) -> Result<TranslationUnit, Fault> {
    text.parse()
}

/// Reads a tree, of a module or of another kind, as [`parse`] and `str::parse` do, of a text that may
/// nest a number of levels deep.
///
/// # Errors
///
/// The fault of the text, or that allocation fails.
///
/// # Examples
///
/// ```
/// use centrelilac::syntax::Expression;
/// use centrelilac::{parse_within, FaultKind};
///
/// assert!(parse_within::<Expression>("f(-a)", 2).is_ok());
/// let fault = parse_within::<Expression>("f(-a)", 1).unwrap_err();
/// assert_eq!((fault.kind, fault.span.range()), (FaultKind::TooDeep, 2..3));
/// ```
pub fn parse_within<T: Source>(text: &str, depth: usize) -> Result<T, Fault> {
    let form = packed_form_of(T::NUMBER, text, depth)?;
    Ok(from_packed(&form).expect("the library writes the packed form of its trees"))
}

/// A token or a comment of a text: what it is, and where it is, in bytes.
#[derive(Clone, Copy, Debug, PartialEq, Eq, Hash)]
pub struct Token {
    /// Which token it is.
    pub kind: TokenKind,
    /// Where it is.
    pub span: Span,
}

/// Returns the tokens of a text, without its comments.
///
/// # Errors
///
/// The first invalid token, or that allocation fails.
///
/// # Examples
///
/// ```
/// use centrelilac::TokenKind;
///
/// let tokens = centrelilac::tokens("a<b>")?;
/// assert_eq!(tokens[1].kind, TokenKind::TemplateArgsStart);
/// assert_eq!(tokens[1].span.start, 1);
/// # Ok::<(), centrelilac::Fault>(())
/// ```
pub fn tokens(text: &str) -> Result<Vec<Token>, Fault> {
    all_tokens(text, false)
}

/// Returns the tokens of a text and the comments between them, in order. A line comment ends before
/// its line break, a block comment after its last sign, and one that is not closed
/// ([`TokenKind::OpenComment`]) at the end of the text.
///
/// # Errors
///
/// The first invalid token, or that allocation fails.
///
/// # Examples
///
/// ```
/// use centrelilac::TokenKind;
///
/// let text = "a /* b */ + // c";
/// let items = centrelilac::tokens_with_comments(text)?;
/// let comments = items.iter().filter(|item| item.kind.is_comment());
/// let comments: Vec<_> = comments.map(|item| &text[item.span.range()]).collect();
/// assert_eq!(comments, ["/* b */", "// c"]);
/// assert_eq!(items[1].kind, TokenKind::BlockComment);
/// # Ok::<(), centrelilac::Fault>(())
/// ```
pub fn tokens_with_comments(text: &str) -> Result<Vec<Token>, Fault> {
    all_tokens(text, true)
}

/// Returns the tokens of a text and the comments between them, as [`tokens_with_comments`] does, up
/// to its first invalid token, and the fault of that if there is one. If allocation fails, there
/// are no tokens, and the fault says so.
///
/// # Examples
///
/// ```
/// use centrelilac::TokenKind;
///
/// let (tokens, fault) = centrelilac::tokens_before_fault("let a = #;");
/// assert_eq!(tokens.len(), 3);
/// assert!(tokens[0].kind.is_keyword());
/// assert_eq!(tokens[2].kind, TokenKind::SymEqual);
/// assert_eq!(fault.map(|fault| fault.column), Some(9));
///
/// let (tokens, fault) = centrelilac::tokens_before_fault("a // b");
/// assert_eq!((tokens.len(), fault), (2, None));
/// ```
#[must_use]
pub fn tokens_before_fault(text: &str) -> (Vec<Token>, Option<Fault>) {
    placed_tokens(text, true)
}

/// Returns the tokens of a text without a fault, with the comments between them or without.
fn all_tokens(text: &str, comments: bool) -> Result<Vec<Token>, Fault> {
    match placed_tokens(text, comments) {
        (tokens, None) => Ok(tokens),
        (_, Some(fault)) => Err(fault),
    }
}

/// Returns the tokens of a text up to its fault, with the comments between them or without, and the
/// fault.
fn placed_tokens(text: &str, comments: bool) -> (Vec<Token>, Option<Fault>) {
    let call = |items: &mut [PlacedKind]| tokens_call(text, comments, items);
    let Some((said, items)) = listed(text.len() / 3 + 16, call) else {
        return (Vec::new(), Some(Fault::out_of_memory()));
    };
    let fault = match said.status {
        DONE => None,
        REFUSED => Some(Fault::told(text, &said.answer, b"invalid token")),
        _ => return (Vec::new(), Some(Fault::out_of_memory())),
    };
    (items.into_iter().map(Token::from).collect(), fault)
}

impl From<PlacedKind> for Token {
    fn from(placed: PlacedKind) -> Token {
        Token {
            kind: TokenKind::ALL[placed.kind],
            span: Span::new(placed.start..placed.end),
        }
    }
}

/// Returns where each template list of a text is, from its `<` to after its `>`, in the order of
/// their starts. They are found in comments too. A `<` at which none of them starts begins no
/// template list.
///
/// # Errors
///
/// Only that allocation fails.
///
/// # Examples
///
/// ```
/// let lists = centrelilac::template_lists("a<b<c>> < d")?;
/// assert_eq!(lists.len(), 2);
/// assert_eq!(lists[0].range(), 1..7);
/// assert_eq!(lists[1].range(), 3..6);
/// # Ok::<(), centrelilac::Fault>(())
/// ```
pub fn template_lists(text: &str) -> Result<Vec<Span>, Fault> {
    let call = |items: &mut [Place]| lists_call(text, items);
    let (said, items) = listed(64, call).ok_or_else(Fault::out_of_memory)?;
    match said.status {
        DONE => Ok(items.iter().map(|it| Span::new(it.start..it.end)).collect()),
        _ => Err(Fault::out_of_memory()),
    }
}

/// Returns whether a text begins with a template list, after blank space and comments.
///
/// # Errors
///
/// Only that allocation fails.
///
/// # Examples
///
/// ```
/// assert!(centrelilac::begins_with_template_list("<a, b>(c)")?);
/// assert!(!centrelilac::begins_with_template_list("< a")?);
/// # Ok::<(), centrelilac::Fault>(())
/// ```
pub fn begins_with_template_list(text: &str) -> Result<bool, Fault> {
    Ok(number(begins_with_list_call(text))? == 1)
}

/// Returns the greatest number of brackets, blocks, template lists and prefix operators that are
/// open at one place of a text, up to its first invalid token.
///
/// Reading a text takes stack for each: in the library at most 2,800 bytes, in
/// [`minify`](crate::minify) 3,800, and in [`tidy`](crate::tidy) 1,900. So a text may nest up to
/// [`DEPTH`] levels deep. This call takes no such stack, nor does
/// [printing a tree](crate::syntax#printing).
///
/// # Errors
///
/// Only that allocation fails.
///
/// # Examples
///
/// ```
/// assert_eq!(centrelilac::nesting("const a = ((1));")?, 2);
/// # Ok::<(), centrelilac::Fault>(())
/// ```
pub fn nesting(text: &str) -> Result<usize, Fault> {
    number(nesting_call(text))
}

/// The number that a call returns, unless allocation fails.
fn number(said: Said) -> Result<usize, Fault> {
    match said.status {
        DONE => Ok(said.answer.size),
        _ => Err(Fault::out_of_memory()),
    }
}

/// The JSON of the tree with a number.
pub(crate) fn form_of(what: u32, text: &str, depth: usize) -> Result<String, Fault> {
    text_of(Call::Tree(depth, what), text, text.len() * 32)
}

/// How many bytes a packed form has at most for a byte of its text: `!` has 26 of them.
pub(crate) const PACKED: usize = 28;

/// The packed form of the tree with a number.
pub(crate) fn packed_form_of(what: u32, text: &str, depth: usize) -> Result<Vec<u8>, Fault> {
    let call = Call::PackedTree(depth, what);
    let packed = answered_bytes(call, text, text.len().saturating_mul(PACKED));
    packed.map(|(_, form)| form)
}

/// The printed text of the node that a packed form describes, unless allocation fails.
pub(crate) fn print_of(form: &[u8]) -> Option<String> {
    let (said, bytes) = written(Call::Print, form, form.len() / 2)?;
    assert_ne!(said.status, REFUSED, "a packed form is printed");
    (said.status == DONE).then(|| utf8(bytes))
}
