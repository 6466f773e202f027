//! Paths of modules in WESL, an extension of WGSL.

use std::error::Error;
use std::fmt;
use std::str::FromStr;

/// The start of a module path.
#[derive(Clone, Debug, PartialEq, Eq, Hash)]
pub enum PathOrigin {
    /// At the root of the package: `package`.
    Absolute,
    /// At the module itself, or a number of levels above it: `self`, or `super` so often.
    Relative(usize),
    /// At the root of the package with this name.
    Package(String),
}

impl PathOrigin {
    /// Returns whether it is [`Absolute`](Self::Absolute).
    ///
    /// ```
    /// assert!(centrelilac::syntax::PathOrigin::Absolute.is_absolute());
    /// ```
    #[must_use]
    pub const fn is_absolute(&self) -> bool {
        matches!(self, PathOrigin::Absolute)
    }

    /// Returns whether it is [`Relative`](Self::Relative).
    ///
    /// ```
    /// assert!(centrelilac::syntax::PathOrigin::Relative(1).is_relative());
    /// ```
    #[must_use]
    pub const fn is_relative(&self) -> bool {
        matches!(self, PathOrigin::Relative(_))
    }

    /// Returns whether it is [`Package`](Self::Package).
    ///
    /// ```
    /// assert!(centrelilac::syntax::PathOrigin::Package("a".to_string()).is_package());
    /// ```
    #[must_use]
    pub const fn is_package(&self) -> bool {
        matches!(self, PathOrigin::Package(_))
    }
}

/// The path of a module or of what is in it, such as `super::a::b`.
///
/// ```
/// use centrelilac::syntax::{ModulePath, PathOrigin};
///
/// let path: ModulePath = "super::super::a".parse()?;
/// assert_eq!(path, ModulePath::new(PathOrigin::Relative(2), vec!["a".to_string()]));
/// assert_eq!(path.to_string(), "super::super::a");
/// # Ok::<(), centrelilac::syntax::ModulePathParseError>(())
/// ```
#[derive(Clone, Debug, PartialEq, Eq, Hash)]
pub struct ModulePath {
    /// Where it starts.
    pub origin: PathOrigin,
    /// The names after that.
    pub components: Vec<String>,
}

impl ModulePath {
    /// Returns a path with an origin and components.
    ///
    /// ```
    /// use centrelilac::syntax::{ModulePath, PathOrigin};
    ///
    /// let path = ModulePath::new(PathOrigin::Absolute, vec!["a".to_string()]);
    /// assert_eq!(path.to_string(), "package::a");
    /// ```
    #[must_use]
    pub fn new(origin: PathOrigin, components: Vec<String>) -> Self {
        ModulePath { origin, components }
    }

    /// Returns the root of the package: `package`.
    ///
    /// ```
    /// use centrelilac::syntax::ModulePath;
    ///
    /// assert_eq!("package".parse(), Ok(ModulePath::new_root()));
    /// ```
    #[must_use]
    pub fn new_root() -> Self {
        ModulePath::new(PathOrigin::Absolute, Vec::new())
    }

    /// Returns whether it is the root of the package.
    ///
    /// ```
    /// use centrelilac::syntax::ModulePath;
    ///
    /// assert!(ModulePath::new_root().is_root());
    /// ```
    #[must_use]
    pub fn is_root(&self) -> bool {
        self.origin.is_absolute() && self.components.is_empty()
    }

    /// Puts a component at the end.
    ///
    /// ```
    /// use centrelilac::syntax::ModulePath;
    ///
    /// let mut path = ModulePath::new_root();
    /// path.push("a");
    /// assert_eq!(path.to_string(), "package::a");
    /// ```
    pub fn push(&mut self, item: &str) {
        self.components.push(item.to_owned());
    }

    /// Returns the first component.
    ///
    /// ```
    /// let path: centrelilac::syntax::ModulePath = "self::a::b".parse()?;
    /// assert_eq!(path.first(), Some("a"));
    /// # Ok::<(), centrelilac::syntax::ModulePathParseError>(())
    /// ```
    #[must_use]
    pub fn first(&self) -> Option<&str> {
        self.components.first().map(String::as_str)
    }

    /// Returns the last component.
    ///
    /// ```
    /// let path: centrelilac::syntax::ModulePath = "self::a::b".parse()?;
    /// assert_eq!(path.last(), Some("b"));
    /// # Ok::<(), centrelilac::syntax::ModulePathParseError>(())
    /// ```
    #[must_use]
    pub fn last(&self) -> Option<&str> {
        self.components.last().map(String::as_str)
    }

    /// Puts more components at the end, and returns the path.
    ///
    /// ```
    /// use centrelilac::syntax::ModulePath;
    ///
    /// let path = ModulePath::new_root().join(["a".to_string(), "b".to_string()]);
    /// assert_eq!(path.to_string(), "package::a::b");
    /// ```
    #[must_use]
    pub fn join(mut self, suffix: impl IntoIterator<Item = String>) -> Self {
        self.components.extend(suffix);
        self
    }

    /// Returns what another path means in the module with this path.
    ///
    /// ```
    /// use centrelilac::syntax::ModulePath;
    ///
    /// let module: ModulePath = "other::a".parse()?;
    /// assert_eq!(module.join_path(&"super::b".parse()?).to_string(), "other::b");
    /// assert_eq!(module.join_path(&"package::b".parse()?).to_string(), "other::b");
    /// # Ok::<(), centrelilac::syntax::ModulePathParseError>(())
    /// ```
    #[must_use]
    pub fn join_path(&self, suffix: &Self) -> Self {
        let origin = match (&self.origin, &suffix.origin) {
            (_, PathOrigin::Relative(levels)) => return self.join_relative(*levels, suffix),
            (PathOrigin::Package(_), PathOrigin::Absolute) => self.origin.clone(),
            (PathOrigin::Package(package), PathOrigin::Package(inner)) => {
                PathOrigin::Package(format!("{package}/{inner}"))
            }
            (_, origin) => origin.clone(),
        };
        ModulePath::new(origin, suffix.components.clone())
    }

    /// The components of a path that is a number of levels above this one.
    fn join_relative(&self, levels: usize, suffix: &Self) -> Self {
        let kept = self.components.len().saturating_sub(levels);
        let above = levels.saturating_sub(self.components.len());
        let origin = match &self.origin {
            PathOrigin::Relative(own) => PathOrigin::Relative(own.saturating_add(above)),
            origin => origin.clone(),
        };
        let components = self.components[..kept].iter().chain(&suffix.components);
        ModulePath::new(origin, components.cloned().collect())
    }

    /// Returns whether another path is a beginning of this one.
    ///
    /// ```
    /// use centrelilac::syntax::ModulePath;
    ///
    /// let path: ModulePath = "a::b::c".parse()?;
    /// assert!(path.starts_with(&"a::b".parse()?));
    /// assert!(!path.starts_with(&"a::c".parse()?));
    /// # Ok::<(), centrelilac::syntax::ModulePathParseError>(())
    /// ```
    #[must_use]
    pub fn starts_with(&self, prefix: &Self) -> bool {
        self.origin == prefix.origin && self.components.starts_with(&prefix.components)
    }
}

impl fmt::Display for ModulePath {
    fn fmt(&self, f: &mut fmt::Formatter<'_>) -> fmt::Result {
        match &self.origin {
            PathOrigin::Absolute => f.write_str("package")?,
            PathOrigin::Relative(0) => f.write_str("self")?,
            PathOrigin::Relative(levels) => {
                f.write_str("super")?;
                (1..*levels).try_for_each(|_| f.write_str("::super"))?;
            }
            PathOrigin::Package(name) => f.write_str(name)?,
        }
        let mut components = self.components.iter();
        components.try_for_each(|component| write!(f, "::{component}"))
    }
}

/// The reason why a text is not read as a module path.
#[derive(Clone, Copy, Debug, PartialEq, Eq, Hash)]
pub enum ModulePathParseError {
    /// It starts with no name.
    Empty,
    /// `package` is not at the start.
    MisplacedPackage,
    /// `self` is not at the start.
    MisplacedSelf,
    /// `super` is not at the start, nor after another there.
    MisplacedSuper,
}

impl fmt::Display for ModulePathParseError {
    fn fmt(&self, f: &mut fmt::Formatter<'_>) -> fmt::Result {
        let word = match self {
            ModulePathParseError::Empty => return f.write_str("module name cannot be empty"),
            ModulePathParseError::MisplacedPackage => "package",
            ModulePathParseError::MisplacedSelf => "self",
            ModulePathParseError::MisplacedSuper => "super",
        };
        write!(f, "`{word}` must be a prefix of the module path")
    }
}

impl Error for ModulePathParseError {}

impl FromStr for ModulePath {
    type Err = ModulePathParseError;

    fn from_str(text: &str) -> Result<Self, ModulePathParseError> {
        let names: Vec<_> = text.split("::").collect();
        let levels = names.iter().take_while(|name| **name == "super").count();
        let (origin, after) = match names[0] {
            "" => return Err(ModulePathParseError::Empty),
            "package" => (PathOrigin::Absolute, 1),
            "self" => (PathOrigin::Relative(0), 1),
            "super" => (PathOrigin::Relative(levels), levels),
            name => (PathOrigin::Package(name.to_owned()), 1),
        };
        let components = names[after..].iter().map(|name| component(name));
        Ok(ModulePath::new(
            origin,
            components.collect::<Result<_, _>>()?,
        ))
    }
}

/// A name that is not at the start of a path.
fn component(name: &str) -> Result<String, ModulePathParseError> {
    match name {
        "package" => Err(ModulePathParseError::MisplacedPackage),
        "self" => Err(ModulePathParseError::MisplacedSelf),
        "super" => Err(ModulePathParseError::MisplacedSuper),
        _ => Ok(name.to_owned()),
    }
}
