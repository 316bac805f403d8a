//! A child of the published delimiter module: hands out its scan for code bytes and its rule for `<`.

use super::{CommentStyle, DelimiterError};

pub(crate) fn code_chars(text: &str, style: CommentStyle) -> Result<Vec<(usize, char)>, DelimiterError> {
    super::code_chars(text, style)
}

pub(crate) fn opens_angle(before: Option<char>, after: Option<char>) -> bool {
    super::is_template_start(before, after)
}
