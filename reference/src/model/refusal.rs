//! Why a job refuses.

use std::fmt;

/// The number of a rule in docs/RULES.md. A rule that came between two others later has the number of the one before it
/// and a letter, and stands between them in the order too.
#[derive(Clone, Copy, PartialEq, Eq, PartialOrd, Ord)]
pub struct Rule {
    pub number: u8,
    letter: Option<char>,
}

impl Rule {
    pub const fn new(number: u8) -> Rule {
        Rule { number, letter: None }
    }

    /// The rule behind that one, with a letter of its own.
    pub const fn behind(number: u8, letter: char) -> Rule {
        Rule { number, letter: Some(letter) }
    }
}

impl fmt::Debug for Rule {
    fn fmt(&self, to: &mut fmt::Formatter) -> fmt::Result {
        write!(to, "{}", self.number)?;
        self.letter.map_or(Ok(()), |letter| write!(to, "{letter}"))
    }
}

/// The rule that refuses, which of the rule's clauses it is, and the number that is answered.
#[derive(Clone, Copy, Debug, PartialEq, Eq, PartialOrd, Ord)]
pub struct Refusal {
    pub rule: Rule,
    pub clause: &'static str,
    pub number: u8,
}

impl Refusal {
    pub const fn new(rule: u8, clause: &'static str, number: u8) -> Refusal {
        Refusal { rule: Rule::new(rule), clause, number }
    }
}

#[cfg(test)]
mod tests {
    use super::*;

    #[test]
    fn a_rule_with_a_letter_stands_between_two_others() {
        let rules = [Rule::new(70), Rule::behind(70, 'a'), Rule::behind(70, 'b'), Rule::new(71)];
        assert!(rules.is_sorted());
        assert_eq!(format!("{rules:?}"), "[70, 70a, 70b, 71]");
    }
}
