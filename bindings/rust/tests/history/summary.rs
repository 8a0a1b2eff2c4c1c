//! What was tried, counted, so that a run over dead books is seen to be one.

use std::collections::BTreeMap;
use std::fmt;

#[derive(Default)]
pub struct Summary {
    pub histories: u64,
    pub calls: u64,
    pub accepted: u64,
    pub refused: BTreeMap<u8, u64>,
    pub takes: u64,
    pub changing: u64,
    pub states: u64,
    pub distinct: u64,
    /// Desks' own lines, by moment, desk and pile; those whose desk knows
    /// another tonnage than all acts made leave; and of these, where that
    /// tonnage is the line's least, or its most.
    pub lines: u64,
    pub unknown: u64,
    pub at_least: u64,
    pub at_most: u64,
}

impl Summary {
    pub fn add(&mut self, other: &Summary) {
        self.histories += other.histories;
        self.calls += other.calls;
        self.accepted += other.accepted;
        for (&number, count) in &other.refused {
            *self.refused.entry(number).or_default() += count;
        }
        self.takes += other.takes;
        self.changing += other.changing;
        self.states += other.states;
        self.distinct += other.distinct;
        self.lines += other.lines;
        self.unknown += other.unknown;
        self.at_least += other.at_least;
        self.at_most += other.at_most;
    }

    /// "Equality of two dead books is therefore no pass." Each kind of step and
    /// each refusal that amounts up to 1,000 can reach must have come up, and a
    /// desk that lacks acts must have stood at both ends of what it is sure of.
    pub fn is_alive(&self) -> bool {
        self.accepted > 0
            && self.changing > 0
            && self.changing < self.takes
            && [10, 12, 13, 14]
                .iter()
                .all(|number| self.refused.contains_key(number))
            && self.unknown > 0
            && self.at_least > 0
            && self.at_most > 0
    }
}

impl fmt::Display for Summary {
    fn fmt(&self, f: &mut fmt::Formatter) -> fmt::Result {
        writeln!(f, "histories {}, calls {}", self.histories, self.calls)?;
        write!(f, "acts accepted {}, refused", self.accepted)?;
        for (number, count) in &self.refused {
            write!(f, " {number}: {count}")?;
        }
        writeln!(f)?;
        writeln!(
            f,
            "takes {}, that changed something {}",
            self.takes, self.changing
        )?;
        writeln!(
            f,
            "states compared {}, distinct {}",
            self.states, self.distinct
        )?;
        write!(
            f,
            "lines {}, known is not by all acts made {}, at the least {}, at the most {}",
            self.lines, self.unknown, self.at_least, self.at_most
        )
    }
}
