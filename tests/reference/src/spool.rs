//! Spool: "1 to 61,440 bytes; 1 to 12 volumes, nothing after."

pub const MOST_BYTES: usize = 61_440;
pub const MOST_VOLUMES: usize = 12;
pub const LONGEST_LINE: usize = 512;
/// "mark 56 50 hex"
pub const MARK: [u8; 2] = [0x56, 0x50];
pub const NAME_BYTES: usize = 8;
/// "one byte 1A hex"
pub const FINAL_BYTE: u8 = 0x1A;

const HEAD_BYTES: usize = MARK.len() + NAME_BYTES + 2;

/// A part of the spool, and its byte place in the spool, from 0.
#[derive(Clone, Copy, Debug, PartialEq, Eq)]
pub struct Text<'s> {
    pub place: usize,
    pub bytes: &'s [u8],
}

impl<'s> Text<'s> {
    pub fn of(spool: &'s [u8], from: usize, to: usize) -> Self {
        Text { place: from, bytes: &spool[from..to] }
    }

    /// The part from byte `from` up to byte `to` of this part.
    pub fn part(self, from: usize, to: usize) -> Self {
        Text { place: self.place + from, bytes: &self.bytes[from..to] }
    }

    pub fn from(self, from: usize) -> Self {
        self.part(from, self.bytes.len())
    }
}

/// A volume: its name without the spaces, and its bytes.
#[derive(Clone, Copy, Debug)]
pub struct Volume<'s> {
    pub name: &'s [u8],
    pub body: Text<'s>,
}

/// The volumes of a spool, or nothing where the spool rules (refusal 2) are broken.
pub fn volumes(spool: &[u8]) -> Option<Vec<Volume<'_>>> {
    if spool.is_empty() || spool.len() > MOST_BYTES {
        return None;
    }
    let mut found: Vec<Volume> = Vec::new();
    let mut at = 0;
    while at < spool.len() {
        let volume = volume_at(spool, at)?;
        at = volume.body.place + volume.body.bytes.len();
        // "Names in the spool differ (else 2)."
        if found.iter().any(|earlier| earlier.name == volume.name) {
            return None;
        }
        found.push(volume);
    }
    if found.len() > MOST_VOLUMES {
        return None;
    }
    Some(found)
}

/// "Each volume: mark 56 50 hex; 8 name bytes; length as 2 bytes, high first; that many bytes."
fn volume_at(spool: &[u8], at: usize) -> Option<Volume<'_>> {
    let head = spool.get(at..at + HEAD_BYTES)?;
    if head[..2] != MARK {
        return None;
    }
    let name = volume_name(&head[2..10])?;
    let length = head[10] as usize * 256 + head[11] as usize;
    let start = at + HEAD_BYTES;
    if spool.len() - start < length {
        return None;
    }
    Some(Volume { name, body: Text::of(spool, start, start + length) })
}

/// "1 to 8 of A-Z, 0-9, then spaces"
fn volume_name(bytes: &[u8]) -> Option<&[u8]> {
    let length = bytes.iter().take_while(|b| b.is_ascii_uppercase() || b.is_ascii_digit()).count();
    let (name, rest) = bytes.split_at(length);
    if name.is_empty() || rest.iter().any(|&b| b != b' ') {
        return None;
    }
    Some(name)
}

/// The lines of a volume without their CR LF, or nothing where its line ends, final byte or a line's length are wrong (refusal 3).
///
/// "A volume is zero or more lines, each ended by CR LF, then one byte 1A hex. No other 1A, CR or LF. A line has at most 512 bytes before
/// CR LF."
pub fn lines(body: Text<'_>) -> Option<Vec<Text<'_>>> {
    let (&last, before) = body.bytes.split_last()?;
    if last != FINAL_BYTE || before.contains(&FINAL_BYTE) {
        return None;
    }
    let mut found = Vec::new();
    let mut start = 0;
    while start < before.len() {
        let end = start + before[start..].iter().position(|&b| b == b'\r' || b == b'\n')?;
        if before[end] != b'\r' || before.get(end + 1) != Some(&b'\n') {
            return None;
        }
        if end - start > LONGEST_LINE {
            return None;
        }
        found.push(body.part(start, end));
        start = end + 2;
    }
    Some(found)
}
