//! Weighbridge tickets: the worked one both ways, the limits of each field, and which of two faults is told.

use pitbook::{Refusal, Ticket, raw};

/// Ticket 12345678: desk 0 tips 30 tonnes onto pile 7.
const WORKED: Ticket = Ticket {
    number: 12_345_678,
    pile: 7,
    tonnes: 30,
    kind: Ticket::TIP,
    desk: 0,
};

const BYTES: [u8; 11] = [
    0x12, 0x34, 0x56, 0x78, 0x00, 0x00, 0x07, 0x00, 0x30, 0x01, 0x00,
];

/// The worked ticket's bytes with others from a position on.
fn with(at: usize, bytes: &[u8]) -> [u8; 11] {
    let mut all = BYTES;
    all[at..at + bytes.len()].copy_from_slice(bytes);
    all
}

#[test]
fn the_worked_ticket() {
    assert_eq!(Ticket::read(&BYTES), Ok(WORKED));
    assert_eq!(WORKED.to_bytes(), Ok(BYTES));
    let mut long = [0xee; 13];
    assert_eq!(WORKED.write(&mut long), Ok(()));
    assert_eq!(long[..11], BYTES);
    assert_eq!(long[11..], [0xee; 2]);
}

#[test]
fn the_limits_of_each_field() {
    let good = [
        Ticket {
            number: 0,
            ..WORKED
        },
        Ticket {
            number: Ticket::NUMBER_LIMIT,
            ..WORKED
        },
        Ticket { pile: 1, ..WORKED },
        Ticket {
            pile: 65_535,
            ..WORKED
        },
        Ticket {
            tonnes: 1,
            ..WORKED
        },
        Ticket {
            tonnes: 1_000,
            ..WORKED
        },
        Ticket {
            kind: Ticket::DRAW,
            ..WORKED
        },
        Ticket { desk: 7, ..WORKED },
    ];
    for ticket in good {
        let bytes = ticket.to_bytes().unwrap();
        assert_eq!(Ticket::read(&bytes), Ok(ticket));
    }
}

#[test]
fn every_tonnage_and_every_digit() {
    for tonnes in 0..=9_999u32 {
        let digits = [1_000, 100, 10, 1].map(|unit| (tonnes / unit % 10) as u8);
        let bytes = with(7, &[16 * digits[0] + digits[1], 16 * digits[2] + digits[3]]);
        let read = Ticket::read(&bytes).map(|ticket| ticket.tonnes);
        let lawful = (1..=1_000).contains(&tonnes);
        assert_eq!(
            read,
            if lawful {
                Ok(tonnes)
            } else {
                Err(Refusal::AmountWrong)
            }
        );
    }
    // The number's bytes one by one, and the last byte of the others: pile 0 to 99, tonnes 0 to 99.
    for byte in 0..=u8::MAX {
        let right = byte / 16 <= 9 && byte % 16 <= 9;
        for at in [0, 1, 2, 3, 6, 8] {
            let read = Ticket::read(&with(at, &[byte]));
            if right && (at < 4 || byte != 0) {
                assert_eq!(read.unwrap().to_bytes(), Ok(with(at, &[byte])));
            } else if !right {
                assert_eq!(read, Err(Refusal::DigitsWrong));
            } else {
                let refusal =
                    [Refusal::TicketPileWrong, Refusal::AmountWrong][usize::from(at == 8)];
                assert_eq!(read, Err(refusal));
            }
        }
    }
}

#[test]
fn refused_in_the_fields_order() {
    let lengths: [&[u8]; 3] = [&[], &[0xff; 10], &[0xff; 12]];
    for bytes in lengths {
        assert_eq!(Ticket::read(bytes), Err(Refusal::LengthWrong));
    }
    let reads = [
        (with(3, &[0x7a, 0, 0, 0]), Refusal::DigitsWrong),
        (with(4, &[0xff, 0xff, 0xff]), Refusal::DigitsWrong),
        (with(4, &[0, 0, 0, 0xff, 0xff]), Refusal::TicketPileWrong),
        (with(4, &[0x06, 0x55, 0x36]), Refusal::TicketPileWrong),
        (with(7, &[0xff, 0xff, 0]), Refusal::DigitsWrong),
        (with(7, &[0, 0, 0]), Refusal::AmountWrong),
        (with(7, &[0x10, 0x01]), Refusal::AmountWrong),
        (with(9, &[0, 8]), Refusal::KindOrDeskWrong),
        (with(9, &[3]), Refusal::KindOrDeskWrong),
        (with(10, &[8]), Refusal::KindOrDeskWrong),
    ];
    for (bytes, refusal) in reads {
        assert_eq!(Ticket::read(&bytes), Err(refusal), "{bytes:02x?}");
    }
    let writes = [
        ((Ticket::NUMBER_LIMIT + 1, 0, 0, 0, 8), Refusal::DigitsWrong),
        ((u32::MAX, 0, 0, 0, 8), Refusal::DigitsWrong),
        ((0, 0, 0, 0, 8), Refusal::TicketPileWrong),
        ((0, 65_536, 0, 0, 8), Refusal::TicketPileWrong),
        ((0, 1, 0, 0, 8), Refusal::AmountWrong),
        ((0, 1, 1_001, 0, 8), Refusal::AmountWrong),
        ((0, 1, 1, 0, 8), Refusal::KindOrDeskWrong),
        ((0, 1, 1, 3, 0), Refusal::KindOrDeskWrong),
        ((0, 1, 1, 1, 8), Refusal::KindOrDeskWrong),
        ((0, 1, 1, 1, 7), Refusal::BufferShort),
    ];
    let mut out = [0xee; 10];
    for ((number, pile, tonnes, kind, desk), refusal) in writes {
        let ticket = Ticket {
            number,
            pile,
            tonnes,
            kind,
            desk,
        };
        assert_eq!(ticket.write(&mut out), Err(refusal), "{ticket:?}");
    }
    assert_eq!(out, [0xee; 10]);
}

#[test]
fn fields_stay_where_refused() {
    let (mut number, mut pile, mut tonnes) = (77, 78, 79);
    let (mut kind, mut desk) = (80, 81);
    let mut read = |bytes: &[u8]| {
        raw::read_ticket(
            bytes,
            &mut number,
            &mut pile,
            &mut tonnes,
            &mut kind,
            &mut desk,
        )
    };
    assert_eq!(read(&BYTES[..10]), 3);
    assert_eq!(read(&with(10, &[8])), 35);
    assert_eq!((number, pile, tonnes, kind, desk), (77, 78, 79, 80, 81));
}
