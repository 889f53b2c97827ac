//! Stand-in for `smol_str`: a shared string, compared and hashed as its bytes.

use std::fmt;
use std::ops::Deref;
use std::sync::Arc;

#[derive(Clone, PartialEq, Eq, PartialOrd, Ord, Hash)]
pub struct SmolStr(Arc<str>);

impl SmolStr {
    pub fn new(text: impl AsRef<str>) -> Self {
        SmolStr(text.as_ref().into())
    }
}

impl From<&str> for SmolStr {
    fn from(text: &str) -> Self {
        SmolStr::new(text)
    }
}

impl Deref for SmolStr {
    type Target = str;

    fn deref(&self) -> &str {
        &self.0
    }
}

/// As a text, in quotes.
impl fmt::Debug for SmolStr {
    fn fmt(&self, f: &mut fmt::Formatter<'_>) -> fmt::Result {
        fmt::Debug::fmt(&**self, f)
    }
}

impl fmt::Display for SmolStr {
    fn fmt(&self, f: &mut fmt::Formatter<'_>) -> fmt::Result {
        f.write_str(&self.0)
    }
}
