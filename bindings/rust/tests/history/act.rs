//! The steps of a history: "a call of one of the four acts at a desk on its
//! own newest book, or a take of a copy made of any desk's book earlier in the
//! history or at its start".

use std::fmt;

#[derive(Clone, Copy, Debug, PartialEq, Eq)]
pub enum Kind {
    Tip,
    Draw,
    GiveDraw,
    GiveTip,
}

/// Everything an act is called with beside the book. A tip and a draw have no
/// receiver; theirs is never looked at.
#[derive(Clone, Copy, Debug)]
pub struct Act {
    pub desk: u8,
    pub kind: Kind,
    pub pile: u16,
    pub receiver: u8,
    pub amount: u32,
}

/// Moment m is the one after m calls; moment 0 is the start.
#[derive(Clone, Copy, Debug)]
pub enum Call {
    Act(Act),
    Take { desk: u8, of: u8, moment: usize },
}

impl Kind {
    pub const ALL: [Kind; 4] = [Kind::Tip, Kind::Draw, Kind::GiveDraw, Kind::GiveTip];

    pub fn gives(self) -> bool {
        matches!(self, Kind::GiveDraw | Kind::GiveTip)
    }
}

impl Call {
    /// The desk whose book the call writes.
    pub fn desk(&self) -> usize {
        match *self {
            Call::Act(act) => usize::from(act.desk),
            Call::Take { desk, .. } => usize::from(desk),
        }
    }
}

impl fmt::Display for Call {
    fn fmt(&self, f: &mut fmt::Formatter) -> fmt::Result {
        match *self {
            Call::Act(act) => {
                let (desk, pile, amount) = (act.desk, act.pile, act.amount);
                let receiver = act.receiver;
                match act.kind {
                    Kind::Tip => write!(f, "desk {desk}, pile {pile}: tip {amount}"),
                    Kind::Draw => write!(f, "desk {desk}, pile {pile}: draw {amount}"),
                    Kind::GiveDraw => {
                        write!(
                            f,
                            "desk {desk}, pile {pile}: give draw {amount} to {receiver}"
                        )
                    }
                    Kind::GiveTip => {
                        write!(
                            f,
                            "desk {desk}, pile {pile}: give tip {amount} to {receiver}"
                        )
                    }
                }
            }
            Call::Take { desk, of, moment } => {
                write!(
                    f,
                    "desk {desk}: take the copy of desk {of} of moment {moment}"
                )
            }
        }
    }
}
