use std::path::Path;

/// How a text is written.
#[derive(Clone, Copy, Debug, PartialEq, Eq, Hash)]
pub enum Spelling {
    /// One expression: each element is brackets around its name, parameters and content.
    Nested,
    /// A run of expressions: blocks are commands, and their content follows them.
    Imperative,
}

impl Spelling {
    /// The spelling that a file's ending stands for: `.sd` nested, `.sdi` imperative.
    ///
    /// ```
    /// use structural::Spelling;
    /// assert_eq!(Spelling::of_file("manual.sdi"), Some(Spelling::Imperative));
    /// assert_eq!(Spelling::of_file("manual.txt"), None);
    /// ```
    pub fn of_file(name: impl AsRef<Path>) -> Option<Spelling> {
        match name.as_ref().extension()?.to_str()? {
            "sd" => Some(Spelling::Nested),
            "sdi" => Some(Spelling::Imperative),
            _ => None,
        }
    }
}
