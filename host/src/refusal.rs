//! The refusals of document 01's table, by number and by the trade's word.
use std::fmt;

/// Why a call was refused. Whatever was lent to it holds what it held before.
#[derive(Clone, Copy, Debug, PartialEq, Eq, Hash)]
pub struct Refusal(u32);

const WORDS: [&str; 28] = [
    "misread",
    "oversize",
    "bad setting",
    "unsupported",
    "odd width",
    "zero length",
    "specialization",
    "zero stride",
    "nested handles",
    "unsized element",
    "handle member",
    "row-major",
    "offset repeated",
    "offsets missing",
    "unsized misplaced",
    "overflow",
    "ambiguous",
    "no pointer",
    "no parts",
    "unknown field",
    "field outside",
    "far field",
    "step overflow",
    "short list",
    "no buffer",
    "no runtime array",
    "not last",
    "reversed",
];

impl Refusal {
    /// 24: the result is complete, but longer than the lent list.
    pub const SHORT_LIST: Refusal = Refusal(24);

    /// The refusal that a negative answer of a C function stands for.
    pub(crate) fn of(answer: i64) -> Refusal {
        Refusal(answer.unsigned_abs() as u32)
    }

    pub fn number(self) -> u32 {
        self.0
    }

    /// The trade's word; a table that no sheet made may hold other numbers.
    pub fn word(self) -> &'static str {
        self.0.checked_sub(1).and_then(|i| WORDS.get(i as usize)).unwrap_or(&"other")
    }
}

impl fmt::Display for Refusal {
    fn fmt(&self, f: &mut fmt::Formatter<'_>) -> fmt::Result {
        write!(f, "{} ({})", self.word(), self.0)
    }
}

impl std::error::Error for Refusal {}
