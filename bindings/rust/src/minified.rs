//! Modules minified, with shorter names.

use crate::calls::{answered, DEPTH};
use crate::fault::Fault;
use crate::ffi::Call;

/// The names of a module that get new ones, besides those that always stay: the names of entry
/// points, overrides and members, and those from outside of the module.
#[derive(Clone, Copy, Debug, Default, PartialEq, Eq, Hash)]
pub enum Names {
    /// No names.
    None = 0,
    /// Those that are declared in functions alone.
    Locals = 1,
    /// All that are declared.
    #[default]
    All = 2,
}

/// What is minified of a module beside its blank space, comments and empty items.
///
/// # Examples
///
/// ```
/// use centrelilac::{MinifyOptions, Names};
///
/// let options = MinifyOptions { keep: &["scale"], ..MinifyOptions::default() };
/// assert_eq!(options.names, Names::All);
/// ```
#[derive(Clone, Copy, Debug, Default, PartialEq, Eq, Hash)]
pub struct MinifyOptions<'a> {
    /// The names that get new ones.
    pub names: Names,
    /// Names that stay, and that no other name gets.
    pub keep: &'a [&'a str],
}

/// A minified module.
///
/// # Examples
///
/// ```
/// let minified = centrelilac::minify("const size = 8;", &Default::default())?;
/// assert_eq!(minified.text, "const a=8;");
/// assert_eq!(minified.names, [("size".to_string(), "a".to_string())]);
/// # Ok::<(), centrelilac::Fault>(())
/// ```
#[derive(Clone, Debug, PartialEq, Eq, Hash)]
pub struct Minified {
    /// Its text, with no line break at its end.
    pub text: String,
    /// Each name that got a new one, with the new one; those that occur most often are first.
    pub names: Vec<(String, String)>,
}

/// Minifies a module: gives shorter names to what it declares, and returns a text with these names,
/// without comments and empty items. It has the tokens of the module's print, but whole numbers are
/// in hexadecimal if that is shorter, and a `default` that is alone in its clause has no `case`; no
/// text with these tokens is shorter. Each use of a name refers to what it referred to before.
///
/// # Errors
///
/// The fault of the text, or that allocation fails.
///
/// # Examples
///
/// ```
/// use centrelilac::{minify, MinifyOptions, Names};
///
/// let text = "const scale = 2; // twice\n@fragment fn main() { let size = scale; }";
/// let all = minify(text, &MinifyOptions::default())?;
/// assert_eq!(all.text, "const a=2;@fragment fn main(){let b=a;}");
///
/// let options = MinifyOptions { names: Names::Locals, keep: &[] };
/// let locals = minify(text, &options)?;
/// assert_eq!(locals.text, "const scale=2;@fragment fn main(){let a=scale;}");
/// # Ok::<(), centrelilac::Fault>(())
/// ```
pub fn minify(text: &str, options: &MinifyOptions<'_>) -> Result<Minified, Fault> {
    minify_within(text, options, DEPTH)
}

/// Minifies a module as [`minify`] does, which may nest a number of levels deep.
///
/// # Errors
///
/// The fault of the text, or that allocation fails.
///
/// # Examples
///
/// ```
/// use centrelilac::{minify_within, MinifyOptions};
///
/// let options = MinifyOptions::default();
/// assert_eq!(minify_within("const a = ((1));", &options, 2)?.text, "const a=((1));");
/// assert!(minify_within("const a = (((1)));", &options, 2).is_err());
/// # Ok::<(), centrelilac::Fault>(())
/// ```
pub fn minify_within(
    text: &str,
    options: &MinifyOptions<'_>,
    depth: usize,
) -> Result<Minified, Fault> {
    let keep = lines_of(options.keep);
    let call = Call::Minify(depth, options.names as u32, &keep);
    let (answer, mut text) = answered(call, text, text.len())?;
    let map = text.split_off(answer.start);
    let names = names_of(&map);
    Ok(Minified { text, names })
}

/// A line for each text that has no line break, and so may be a name.
fn lines_of(names: &[&str]) -> String {
    let is_line = |name: &&&str| !name.contains(['\r', '\n']);
    let names: Vec<&str> = names.iter().filter(is_line).copied().collect();
    names.join("\n")
}

/// The names with their new names that are the members of an object. No name has a character that
/// is written after a `\`.
fn names_of(map: &str) -> Vec<(String, String)> {
    let texts: Vec<&str> = map.split('"').skip(1).step_by(2).collect();
    let pairs = texts.chunks_exact(2);
    pairs
        .map(|it| (it[0].to_owned(), it[1].to_owned()))
        .collect()
}
