//! Request 3/12, weighbridge tickets, digit by digit.

/// The fields of a ticket, of any values.
#[derive(Clone, Copy, Debug, Default, PartialEq, Eq)]
pub struct Ticket {
    pub number: u32,
    pub pile: u32,
    pub tonnes: u32,
    pub kind: u8,
    pub desk: u8,
}

/// "two digits a byte, high digit first"
fn digits(bytes: &[u8]) -> Vec<u8> {
    bytes
        .iter()
        .flat_map(|byte| [byte >> 4, byte & 15])
        .collect()
}

/// A packed field's value; refused with 33, "a digit above 9".
fn unpacked(bytes: &[u8]) -> Result<u32, u8> {
    digits(bytes)
        .iter()
        .try_fold(0, |value, &digit| match digit {
            0..=9 => Ok(10 * value + u32::from(digit)),
            _ => Err(33),
        })
}

/// A number's decimal digits, with zeros in front, two to a byte.
pub fn packed(number: u32, bytes: usize) -> Vec<u8> {
    let text = format!("{number:0width$}", width = 2 * bytes);
    let digits: Vec<u8> = text.bytes().map(|digit| digit - b'0').collect();
    digits.chunks(2).map(|two| two[0] << 4 | two[1]).collect()
}

// "34, pile 0 or over 65,535; 13 as for acts; 35, kind not 1 or 2, or desk
// above 7."
fn pile_answer(pile: u32) -> Result<(), u8> {
    if pile == 0 || pile > 65_535 {
        return Err(34);
    }
    Ok(())
}

fn tonnes_answer(tonnes: u32) -> Result<(), u8> {
    if tonnes == 0 || tonnes > 1_000 {
        return Err(13);
    }
    Ok(())
}

fn last_answer(kind: u8, desk: u8) -> Result<(), u8> {
    if (kind != 1 && kind != 2) || desk > 7 {
        return Err(35);
    }
    Ok(())
}

/// "Checked in field order after length, which is refusal 3, each field's
/// digits before its value".
pub fn parse(bytes: &[u8]) -> Result<Ticket, u8> {
    if bytes.len() != 11 {
        return Err(3);
    }
    // "ticket number in 4 bytes, pile in 3, tonnes in 2, all packed decimal
    // ..., then kind (1 tip, 2 draw) and desk, a byte each"
    let number = unpacked(&bytes[..4])?;
    let pile = unpacked(&bytes[4..7])?;
    pile_answer(pile)?;
    let tonnes = unpacked(&bytes[7..9])?;
    tonnes_answer(tonnes)?;
    let (kind, desk) = (bytes[9], bytes[10]);
    last_answer(kind, desk)?;
    Ok(Ticket {
        number,
        pile,
        tonnes,
        kind,
        desk,
    })
}

/// The bytes of a ticket; "33 ... in writing a ticket number over 99,999,999".
pub fn print(ticket: &Ticket) -> Result<Vec<u8>, u8> {
    if ticket.number > 99_999_999 {
        return Err(33);
    }
    pile_answer(ticket.pile)?;
    tonnes_answer(ticket.tonnes)?;
    last_answer(ticket.kind, ticket.desk)?;
    Ok([
        packed(ticket.number, 4),
        packed(ticket.pile, 3),
        packed(ticket.tonnes, 2),
        vec![ticket.kind, ticket.desk],
    ]
    .concat())
}
