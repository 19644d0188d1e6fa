//! What comes back: sixteen refusals, each with a number and a name.
//! Where several apply the lowest number is given.

#[derive(Clone, Copy, Debug, PartialEq, Eq)]
pub enum Refusal {
    BadHeader = 1,
    TooLarge,
    Latches,
    BadCount,
    BadLine,
    BadLiteral,
    BadGraph,
    BadAssignment,
    BadRoot,
    BadLeaves,
    NotACut,
    BadCandidate,
    NotEqual,
    NoGain,
    OrderLost,
    NoRoom,
}

impl Refusal {
    pub fn number(self) -> u32 {
        self as u32
    }

    pub fn name(self) -> &'static str {
        match self {
            Refusal::BadHeader => "BAD HEADER",
            Refusal::TooLarge => "TOO LARGE",
            Refusal::Latches => "LATCHES",
            Refusal::BadCount => "BAD COUNT",
            Refusal::BadLine => "BAD LINE",
            Refusal::BadLiteral => "BAD LITERAL",
            Refusal::BadGraph => "BAD GRAPH",
            Refusal::BadAssignment => "BAD ASSIGNMENT",
            Refusal::BadRoot => "BAD ROOT",
            Refusal::BadLeaves => "BAD LEAVES",
            Refusal::NotACut => "NOT A CUT",
            Refusal::BadCandidate => "BAD CANDIDATE",
            Refusal::NotEqual => "NOT EQUAL",
            Refusal::NoGain => "NO GAIN",
            Refusal::OrderLost => "ORDER LOST",
            Refusal::NoRoom => "NO ROOM",
        }
    }

    /// Answers this refusal unless the rule holds.
    pub fn unless(self, holds: bool) -> Result<(), Refusal> {
        if holds {
            Ok(())
        } else {
            Err(self)
        }
    }
}
