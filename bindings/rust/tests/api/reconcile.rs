//! The bridge's tickets against the desk's: counts, the longest lists, and which of two faults is told.

use pitbook::{Reconciliation, Refusal, Ticket, raw, reconcile};

/// A list of loads of desk 0 onto pile 7: numbers and tonnes.
fn list(loads: &[(u32, u32)]) -> Vec<u8> {
    let bytes = |&(number, tonnes): &(u32, u32)| {
        let ticket = Ticket {
            number,
            pile: 7,
            tonnes,
            kind: Ticket::TIP,
            desk: 0,
        };
        ticket.to_bytes().unwrap()
    };
    loads.iter().flat_map(bytes).collect()
}

fn counts(alike: u32, differing: u32, only_bridge: u32, only_desk: u32) -> Reconciliation {
    Reconciliation {
        alike,
        differing,
        only_bridge,
        only_desk,
    }
}

#[test]
fn empty_lists_and_lists_of_one() {
    let one = list(&[(5, 30)]);
    let pairs = [
        (vec![], vec![], counts(0, 0, 0, 0)),
        (one.clone(), vec![], counts(0, 0, 1, 0)),
        (vec![], one.clone(), counts(0, 0, 0, 1)),
        (one.clone(), one.clone(), counts(1, 0, 0, 0)),
        (one.clone(), list(&[(5, 31)]), counts(0, 1, 0, 0)),
        (one.clone(), list(&[(4, 30)]), counts(0, 0, 1, 1)),
        (one.clone(), list(&[(6, 30)]), counts(0, 0, 1, 1)),
    ];
    for (bridge, desk, counts) in pairs {
        assert_eq!(reconcile(&bridge, &desk), Ok(counts));
    }
}

#[test]
fn a_shift() {
    let bridge = list(&[(0, 30), (7, 30), (8, 30), (20, 30), (99_999_998, 30)]);
    let mut loads = vec![(0, 30), (8, 30), (9, 30), (20, 31)];
    loads.extend([(99_999_998, 30), (99_999_999, 30)]);
    let desk = list(&loads);
    assert_eq!(reconcile(&bridge, &desk), Ok(counts(3, 1, 1, 2)));
    assert_eq!(reconcile(&desk, &bridge), Ok(counts(3, 1, 2, 1)));
    assert_eq!(reconcile(&bridge, &bridge), Ok(counts(5, 0, 0, 0)));
    // One list may be part of the other's bytes.
    assert_eq!(reconcile(&bridge, &bridge[11..]), Ok(counts(4, 0, 1, 0)));
}

#[test]
fn as_many_as_a_list_can_have() {
    let loads: Vec<_> = (0..=Ticket::LIST_LIMIT as u32)
        .map(|k| (2 * k, 30))
        .collect();
    let (full, long) = (list(&loads[1..]), list(&loads));
    let later = list(&loads[..Ticket::LIST_LIMIT]);
    assert_eq!(reconcile(&full, &full), Ok(counts(4_096, 0, 0, 0)));
    assert_eq!(reconcile(&full, &later), Ok(counts(4_095, 0, 1, 1)));
    assert_eq!(reconcile(&long, &[]), Err(Refusal::LengthWrong));
    assert_eq!(reconcile(&[], &long), Err(Refusal::LengthWrong));
}

/// Two lists of two tickets, ever less of which is wrong: what is told is what comes first.
#[test]
fn refused_in_order() {
    let mut bridge = list(&[(9, 30), (9, 30)]);
    let mut desk = list(&[(6, 30), (5, 30)]);
    bridge[9] = 3;
    bridge[11] = 0xff;
    desk[4] = 0x09;
    desk[11 + 8] = 0;
    assert_eq!(reconcile(&bridge[1..], &desk), Err(Refusal::LengthWrong));
    assert_eq!(reconcile(&bridge, &desk[1..]), Err(Refusal::LengthWrong));
    let mut told = Vec::new();
    let mut tell = |bridge: &[u8], desk: &[u8]| told.push(reconcile(bridge, desk).unwrap_err());
    tell(&bridge, &desk);
    bridge[9] = 1;
    tell(&bridge, &desk);
    bridge[11] = 0;
    tell(&bridge, &desk);
    desk[4] = 0;
    tell(&bridge, &desk);
    desk[11 + 8] = 0x30;
    tell(&bridge, &desk);
    let bridge = list(&[(9, 30), (10, 30)]);
    tell(&bridge, &desk);
    let wanted = [
        Refusal::KindOrDeskWrong,
        Refusal::DigitsWrong,
        Refusal::TicketPileWrong,
        Refusal::AmountWrong,
        Refusal::BridgeNotRising,
        Refusal::DeskNotRising,
    ];
    assert_eq!(told, wanted);
    assert_eq!(
        reconcile(&bridge, &list(&[(5, 30), (6, 30)])),
        Ok(counts(0, 0, 2, 2))
    );
}

#[test]
fn counts_stay_where_refused() {
    let (mut alike, mut differing, mut only_bridge, mut only_desk) = (77, 78, 79, 80);
    let mut call = |bridge: &[u8], desk: &[u8]| {
        raw::reconcile(
            bridge,
            desk,
            &mut alike,
            &mut differing,
            &mut only_bridge,
            &mut only_desk,
        )
    };
    let (one, twice) = (list(&[(5, 30)]), list(&[(5, 30), (5, 30)]));
    assert_eq!(call(&one[1..], &one), 3);
    assert_eq!(call(&one, &twice), 37);
    assert_eq!((alike, differing, only_bridge, only_desk), (77, 78, 79, 80));
}
