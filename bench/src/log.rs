//! Blocks of a log.

/// How many bytes a block has.
pub const BLOCK: usize = 512;

/// What a block is refused for, by the number that is told.
#[derive(Clone, Copy, PartialEq, Eq, Debug)]
pub enum Fault {
    WrongLength = 9,
    Torn = 10,
    Strange = 11,
    OtherGrid = 12,
    BadRecord = 13,
}

/// A record of a block of N objectives.
#[derive(Clone, Copy, Debug)]
pub enum Record<const N: usize> {
    Trial { tag: u32, point: [u32; N] },
    Note,
}

impl<const N: usize> Record<N> {
    fn read(kind: u8, content: &[u8]) -> Option<Record<N>> {
        match kind {
            1 => Record::read_trial(content),
            2 => Some(Record::Note),
            _ => None,
        }
    }

    fn read_trial(content: &[u8]) -> Option<Record<N>> {
        let ([tag, figures @ ..], []) = content.as_chunks() else {
            return None;
        };
        let figures: [[u8; 4]; N] = figures.try_into().ok()?;
        Some(Record::Trial {
            tag: u32::from_be_bytes(*tag),
            point: figures.map(u32::from_be_bytes),
        })
    }
}

/// The records of a block, in order. It ends early where the bytes are no record.
#[derive(Clone, Debug)]
pub struct Records<'a, const N: usize> {
    bytes: &'a [u8],
    left: u8,
}

impl<const N: usize> Iterator for Records<'_, N> {
    type Item = Record<N>;

    fn next(&mut self) -> Option<Record<N>> {
        self.left = self.left.checked_sub(1)?;
        let [kind, length, rest @ ..] = self.bytes else {
            return None;
        };
        let (content, rest) = rest.split_at_checked(usize::from(*length))?;
        self.bytes = rest;
        Record::read(*kind, content)
    }
}

/// The two checksums: the sum of the bytes, and the sum of the sums on the way.
fn checksums(bytes: &[u8]) -> (u16, u16) {
    let (mut a, mut b) = (0u16, 0u16);
    for byte in bytes {
        a = a.wrapping_add(u16::from(*byte));
        b = b.wrapping_add(a);
    }
    (a, b)
}

/// Checks a whole block of N objectives, and hands out its records or its first fault.
pub fn check<const N: usize>(block: &[u8]) -> Result<Records<'_, N>, Fault> {
    let block: &[u8; BLOCK] = block.try_into().map_err(|_| Fault::WrongLength)?;
    let [body @ .., a0, a1, b0, b1] = block;
    if checksums(body)
        != (
            u16::from_be_bytes([*a0, *a1]),
            u16::from_be_bytes([*b0, *b1]),
        )
    {
        return Err(Fault::Torn);
    }
    let [kind, count, objectives, zero, _, _, _, _, bytes @ ..] = body;
    if (*kind, *zero) != (1, 0) {
        return Err(Fault::Strange);
    }
    if usize::from(*objectives) != N {
        return Err(Fault::OtherGrid);
    }
    let records = Records {
        bytes,
        left: *count,
    };
    let mut read = records.clone();
    let found = read.by_ref().count();
    if found != usize::from(*count) || read.bytes.iter().any(|byte| *byte != 0) {
        return Err(Fault::BadRecord);
    }
    Ok(records)
}
