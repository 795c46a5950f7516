//! The rules of answers, by their names.
use crate::raw;
use std::fmt;

/// A rule N1 to N26 that refused a call, or why a call was not made.
#[derive(Clone, Copy, PartialEq, Eq, Hash, PartialOrd, Ord)]
pub struct Rule(u32);

macro_rules! rules {
    ($($name:ident = $number:literal)*) => {
        impl Rule {
            $(pub const $name: Rule = Rule($number);)*
        }

        impl fmt::Display for Rule {
            fn fmt(&self, f: &mut fmt::Formatter<'_>) -> fmt::Result {
                match self.0 {
                    $($number => f.write_str(stringify!($name)),)*
                    other => write!(f, "rule {other}"),
                }
            }
        }
    };
}

rules! {
    N1 = 1 N2 = 2 N3 = 3 N4 = 4 N5 = 5 N6 = 6 N7 = 7 N8 = 8 N9 = 9 N10 = 10 N11 = 11 N12 = 12 N13 = 13 N14 = 14
    N15 = 15 N16 = 16 N17 = 17 N18 = 18 N19 = 19 N20 = 20 N21 = 21 N22 = 22 N23 = 23 N24 = 24 N25 = 25 N26 = 26
    NO_DOMAIN = 256 BUSY = 257 NO_MEMORY = 258 NO_COPY = 259 ABSENT = 260 NULL_POINTER = 261
}

impl Rule {
    pub(crate) fn of(number: u32) -> Rule {
        Rule(number)
    }

    /// Its number in `enum gthost_rule`.
    pub fn number(self) -> u32 {
        self.0
    }
}

impl fmt::Debug for Rule {
    fn fmt(&self, f: &mut fmt::Formatter<'_>) -> fmt::Result {
        fmt::Display::fmt(self, f)
    }
}

/// What a rule means: its name, its status, why it refuses, and what the caller may do.
pub fn rule_text(rule: Rule) -> String {
    // SAFETY: no pointer is passed.
    let line = unsafe { raw::gthost_rule_text(rule.0) };
    String::from_utf8_lossy(&line.bytes[..line.len]).into_owned()
}
