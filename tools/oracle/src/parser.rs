//! The published `parser` folder: clauses and directives, and a stand-in for the names of directives.

#[allow(dead_code)]
pub mod clause;
#[allow(dead_code)]
pub mod directive;

pub mod directive_kind {
    use std::borrow::Cow;

    /// The published type tells some hundred directives apart. Here a directive is known by its entry in the book, so its
    /// spelling does.
    #[derive(Clone, Debug, PartialEq, Eq)]
    pub struct DirectiveName(String);

    impl From<Cow<'_, str>> for DirectiveName {
        fn from(name: Cow<'_, str>) -> Self {
            Self(name.into_owned())
        }
    }
}
