//! Names.

use std::fmt;
use std::hash::{Hash, Hasher};

/// A name. Two are equal if they are spelled the same.
///
/// Each place in a tree has its own: a copy of a name does not change when the name does, and
/// [`VisitMut`](crate::visit::VisitMut) reaches all names of a tree. A name of at most 22 bytes
/// needs no allocation.
#[derive(Clone)]
pub struct Ident(Spelling);

/// How many bytes a name has at most that is kept without an allocation.
const SHORT: usize = 22;

/// How a name is spelled.
#[derive(Clone)]
enum Spelling {
    /// The first bytes, as many as the size says, are a text; the others are 0.
    Short { size: u8, bytes: [u8; SHORT] },
    /// A text of more bytes.
    Long(Box<str>),
}

impl Ident {
    /// Returns the name that is spelled so.
    ///
    /// ```
    /// use centrelilac::syntax::Ident;
    ///
    /// assert_eq!(Ident::new("a".to_string()), Ident::from("a"));
    /// ```
    #[must_use]
    pub fn new(name: String) -> Self {
        let short = Spelling::short(name.as_bytes());
        Ident(short.unwrap_or_else(|| Spelling::Long(name.into())))
    }

    /// Returns the name that is spelled by some bytes, if they are UTF-8.
    #[inline]
    pub(crate) fn from_utf8(name: &[u8]) -> Option<Self> {
        // nearly all names are short and ASCII, which is checked faster
        match Spelling::short(name) {
            Some(short) if name.is_ascii() => Some(Ident(short)),
            _ => std::str::from_utf8(name).ok().map(Ident::from),
        }
    }

    /// Returns how it is spelled.
    ///
    /// ```
    /// use centrelilac::syntax::Ident;
    ///
    /// assert_eq!(Ident::from("a").name(), "a");
    /// ```
    #[must_use]
    pub fn name(&self) -> &str {
        match &self.0 {
            Spelling::Short { .. } => std::str::from_utf8(self.bytes()).expect("a text"),
            Spelling::Long(name) => name,
        }
    }

    /// Returns the bytes of its name.
    #[inline]
    pub(crate) fn bytes(&self) -> &[u8] {
        match &self.0 {
            Spelling::Short { size, bytes } => &bytes[..usize::from(*size)],
            Spelling::Long(name) => name.as_bytes(),
        }
    }

    /// Spells it otherwise. Copies that were made before stay as they are.
    ///
    /// ```
    /// use centrelilac::syntax::Ident;
    ///
    /// let mut ident = Ident::from("a");
    /// let copy = ident.clone();
    /// ident.rename("b".to_string());
    /// assert_eq!((ident.name(), copy.name()), ("b", "a"));
    /// ```
    pub fn rename(&mut self, name: String) {
        *self = Ident::new(name);
    }
}

impl Spelling {
    /// Returns how a short name is spelled.
    #[inline]
    fn short(name: &[u8]) -> Option<Self> {
        let mut bytes = [0; SHORT];
        bytes.get_mut(..name.len())?.copy_from_slice(name);
        let size = name.len().try_into().ok()?;
        Some(Spelling::Short { size, bytes })
    }
}

impl From<String> for Ident {
    fn from(name: String) -> Self {
        Ident::new(name)
    }
}

impl From<&str> for Ident {
    #[inline]
    fn from(name: &str) -> Self {
        let short = Spelling::short(name.as_bytes());
        Ident(short.unwrap_or_else(|| Spelling::Long(name.into())))
    }
}

impl PartialEq for Ident {
    fn eq(&self, other: &Self) -> bool {
        self.bytes() == other.bytes()
    }
}

impl Eq for Ident {}

impl Hash for Ident {
    fn hash<H: Hasher>(&self, state: &mut H) {
        self.bytes().hash(state);
    }
}

impl fmt::Debug for Ident {
    fn fmt(&self, f: &mut fmt::Formatter<'_>) -> fmt::Result {
        f.debug_tuple("Ident").field(&self.name()).finish()
    }
}

impl fmt::Display for Ident {
    fn fmt(&self, f: &mut fmt::Formatter<'_>) -> fmt::Result {
        f.write_str(self.name())
    }
}
