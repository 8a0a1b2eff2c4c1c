//! The library and the two versions of the same functions, side by side.

/// Two lists of tickets, and the four counts.
type Reconcile = fn(&[u8], &[u8], &mut u32, &mut u32, &mut u32, &mut u32) -> u8;

/// Function pointers, so that none of the three is inlined into the caller
/// and each pays the same for a call.
// The bench times some of these; the test calls them all.
#[allow(dead_code)]
pub struct Version {
    pub name: &'static str,
    pub open: fn(u8, u8, &[u32], &mut [u8]) -> u8,
    pub check: fn(&[u8]) -> u8,
    pub tip: fn(&mut [u8], u8, u16, u32) -> u8,
    pub draw: fn(&mut [u8], u8, u16, u32) -> u8,
    pub give_draw: fn(&mut [u8], u8, u16, u8, u32) -> u8,
    pub give_tip: fn(&mut [u8], u8, u16, u8, u32) -> u8,
    pub take: fn(&mut [u8], &[u8], u8, &mut u32) -> u8,
    pub compare: fn(&[u8], &[u8], &mut u32) -> u8,
    pub tonnage: fn(&[u8], u16, &mut u32) -> u8,
    pub draw_rights: fn(&[u8], u8, u16, &mut u32) -> u8,
    pub tip_rights: fn(&[u8], u8, u16, &mut u32) -> u8,
    pub least: fn(&[u8], u8, u16, &mut u32) -> u8,
    pub most: fn(&[u8], u8, u16, &mut u32) -> u8,
    pub fetch: fn(&[u8], u16, &mut [u32]) -> u8,
    pub store: fn(&mut [u8], u16, &[u32]) -> u8,
    pub read_ticket: fn(&[u8], &mut u32, &mut u32, &mut u32, &mut u8, &mut u8) -> u8,
    pub write_ticket: fn(u32, u32, u32, u8, u8, &mut [u8]) -> u8,
    pub reconcile: Reconcile,
}

macro_rules! version {
    ($name:literal, $functions:ident) => {
        Version {
            name: $name,
            open: $functions::open,
            check: $functions::check,
            tip: $functions::tip,
            draw: $functions::draw,
            give_draw: $functions::give_draw,
            give_tip: $functions::give_tip,
            take: $functions::take,
            compare: $functions::compare,
            tonnage: $functions::tonnage,
            draw_rights: $functions::draw_rights,
            tip_rights: $functions::tip_rights,
            least: $functions::least,
            most: $functions::most,
            fetch: $functions::fetch,
            store: $functions::store,
            read_ticket: $functions::read_ticket,
            write_ticket: $functions::write_ticket,
            reconcile: $functions::reconcile,
        }
    };
}

use crate::{plain, specialised};
use pitbook::raw;

pub const VERSIONS: [Version; 3] = [
    version!("ours", raw),
    version!("plain", plain),
    version!("specialised", specialised),
];
