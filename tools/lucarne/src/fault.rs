//! What is wrong with the input or with the tool's surroundings: where it stands, what it is, the text there, and what to do.

use std::borrow::Cow;
use std::fmt;
use std::sync::Arc;

/// A place in a sheet. Lines and columns count from 1, columns in characters.
#[derive(Clone, Debug, PartialEq, Eq, PartialOrd, Ord)]
pub struct Spot {
    pub file: Arc<str>,
    pub line: usize,
    pub column: usize,
}

impl Spot {
    /// FILE:LINE, which is enough to find a rule.
    pub fn line(&self) -> String {
        format!("{}:{}", self.file, self.line)
    }
}

impl fmt::Display for Spot {
    fn fmt(&self, out: &mut fmt::Formatter) -> fmt::Result {
        write!(out, "{}:{}:{}", self.file, self.line, self.column)
    }
}

/// Exit status of every command.
pub mod status {
    /// Answered, and fine.
    pub const FINE: i32 = 0;
    /// Answered, and not fine: no position, or lists that differ.
    pub const NOT_FINE: i32 = 1;
    /// The input is refused, in words.
    pub const REFUSED: i32 = 2;
    /// The tool's own trouble: cannot write, a program is missing, a fault of the tool.
    pub const TROUBLE: i32 = 3;
}

/// A refusal or a trouble in words. `more` holds further faults of the same reading.
#[derive(Clone, Debug)]
pub struct Fault {
    pub status: i32,
    pub spot: Option<Spot>,
    pub what: String,
    pub text: String,
    pub hint: String,
    pub more: Vec<Fault>,
}

impl Fault {
    /// A fault of the input that stands nowhere in particular.
    pub fn new(what: impl Into<String>) -> Fault {
        Fault { status: status::REFUSED, spot: None, what: what.into(), text: String::new(), hint: String::new(), more: Vec::new() }
    }

    pub fn at(spot: &Spot, what: impl Into<String>) -> Fault {
        Fault { spot: Some(spot.clone()), ..Fault::new(what) }
    }

    /// A trouble that the input is not to blame for.
    pub fn trouble(what: impl Into<String>) -> Fault {
        Fault { status: status::TROUBLE, ..Fault::new(what) }
    }

    /// A mistake of this program: what it knows for sure did not hold.
    pub fn of_the_tool(what: impl Into<String>) -> Fault {
        Fault::trouble(format!("a fault of this tool: {}", what.into())).hint("please report it, with the sheets")
    }

    /// With the rule's own text below.
    pub fn text(mut self, text: impl Into<String>) -> Fault {
        self.text = cut(&text.into(), MOST_TEXT).into_owned();
        self
    }

    pub fn hint(mut self, hint: impl Into<String>) -> Fault {
        self.hint = hint.into();
        self
    }

    /// With its spot, where it is known.
    pub fn spot(mut self, spot: Option<&Spot>) -> Fault {
        self.spot = spot.cloned();
        self
    }

    /// All faults as one; none is no fault.
    pub fn all(mut faults: Vec<Fault>) -> Result<(), Fault> {
        if faults.is_empty() {
            return Ok(());
        }
        let mut first = faults.remove(0);
        first.more.extend(faults);
        Err(first)
    }
}

/// So much of a rule is enough to find it, and so much of a sentence to understand it.
const MOST_TEXT: usize = 400;
const MOST_TOLD: usize = 4000;

/// At most so many characters of a text.
fn cut(text: &str, most: usize) -> Cow<'_, str> {
    match text.char_indices().nth(most) {
        Some((end, _)) => Cow::Owned(format!("{} ..", &text[..end])),
        None => Cow::Borrowed(text),
    }
}

impl fmt::Display for Fault {
    fn fmt(&self, out: &mut fmt::Formatter) -> fmt::Result {
        match &self.spot {
            Some(spot) => write!(out, "{}: {}", spot, cut(&self.what, MOST_TOLD))?,
            None => write!(out, "{}", cut(&self.what, MOST_TOLD))?,
        }
        if !self.text.is_empty() {
            write!(out, "\n    {}", self.text)?;
        }
        if !self.hint.is_empty() {
            write!(out, "\n  hint: {}", self.hint)?;
        }
        self.more.iter().try_for_each(|fault| write!(out, "\n{}", fault))
    }
}
