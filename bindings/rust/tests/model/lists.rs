//! Request 4/12, bridge against desk: by ticket number, from two maps.

use super::tickets::{self, Ticket};
use std::collections::{BTreeMap, BTreeSet};

/// "at most 4,096 long"
const MOST: usize = 4_096;

/// "3 comes first, for a length not a multiple of 11 or over 4,096 tickets."
fn length_answer(list: &[u8]) -> Result<(), u8> {
    if !list.len().is_multiple_of(11) || list.len() / 11 > MOST {
        return Err(3);
    }
    Ok(())
}

/// "every ticket's own checks, ... tickets in list order"
fn parse(list: &[u8]) -> Result<Vec<Ticket>, u8> {
    list.chunks(11).map(tickets::parse).collect()
}

fn rises(list: &[Ticket]) -> bool {
    (1..list.len()).all(|k| list[k - 1].number < list[k].number)
}

/// "tickets alike in both, in both but differing, only at the bridge, only at
/// the desk. Each count is the number of ticket numbers with that property"
pub fn counts(bridge: &[u8], desk: &[u8]) -> Result<[u32; 4], u8> {
    length_answer(bridge)?;
    length_answer(desk)?;
    // "bridge list first"
    let (bridge, desk) = (parse(bridge)?, parse(desk)?);
    // "36, bridge numbers do not rise; 37, desk numbers do not."
    if !rises(&bridge) {
        return Err(36);
    }
    if !rises(&desk) {
        return Err(37);
    }
    let by_number = |list: Vec<Ticket>| -> BTreeMap<u32, Ticket> {
        list.into_iter().map(|t| (t.number, t)).collect()
    };
    let (bridge, desk) = (by_number(bridge), by_number(desk));
    let numbers: BTreeSet<u32> = bridge.keys().chain(desk.keys()).copied().collect();
    let with = |property: &dyn Fn(Option<&Ticket>, Option<&Ticket>) -> bool| {
        let has = |number: &&u32| property(bridge.get(number), desk.get(number));
        numbers.iter().filter(has).count() as u32
    };
    Ok([
        with(&|ours, theirs| ours.is_some() && ours == theirs),
        with(&|ours, theirs| ours.is_some() && theirs.is_some() && ours != theirs),
        with(&|_, theirs| theirs.is_none()),
        with(&|ours, _| ours.is_none()),
    ])
}
