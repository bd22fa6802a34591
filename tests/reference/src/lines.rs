//! Lines: comments, blanks, allowed bytes and forms.

use crate::spool::Text;

/// What is read of a line: nothing if it is ignored, otherwise the line without its leading blanks.
pub fn rest_of(line: Text<'_>) -> Option<Text<'_>> {
    // "First byte `#`: comment, ignored unread."
    if line.bytes.first() == Some(&b'#') {
        return None;
    }
    let rest = line.from(blanks(line.bytes));
    // "A line then empty is ignored."
    if rest.bytes.is_empty() {
        return None;
    }
    Some(rest)
}

/// How many bytes are leading blanks: "Leading 20, 09 and the pair 81 40 hex are dropped."
fn blanks(bytes: &[u8]) -> usize {
    let mut at = 0;
    loop {
        match bytes[at..] {
            [0x20 | 0x09, ..] => at += 1,
            [0x81, 0x40, ..] => at += 2,
            _ => return at,
        }
    }
}

/// "The rest is bytes 20-7E, A1-DF, or pairs of lead 81-9F or E0-FC and trail 40-7E or 80-FC."
pub fn bytes_allowed(bytes: &[u8]) -> bool {
    let mut rest = bytes;
    loop {
        rest = match rest {
            [] => return true,
            [0x20..=0x7E | 0xA1..=0xDF, after @ ..] => after,
            [0x81..=0x9F | 0xE0..=0xFC, 0x40..=0x7E | 0x80..=0xFC, after @ ..] => after,
            _ => return false,
        }
    }
}

/// What follows a key: `=` and something, or `:{` and something.
#[derive(Clone, Copy)]
pub enum Tail<'s> {
    Equals(Text<'s>),
    Opens(Text<'s>),
}

/// "The key ends at the first `=` or `:{` and isn't empty."
pub fn split_key(rest: Text<'_>) -> Option<(Text<'_>, Tail<'_>)> {
    let bytes = rest.bytes;
    for at in 0..bytes.len() {
        if bytes[at] == b'=' {
            return not_empty(rest.part(0, at)).map(|key| (key, Tail::Equals(rest.from(at + 1))));
        }
        if bytes[at..].starts_with(b":{") {
            return not_empty(rest.part(0, at)).map(|key| (key, Tail::Opens(rest.from(at + 2))));
        }
    }
    None
}

fn not_empty(text: Text<'_>) -> Option<Text<'_>> {
    if text.bytes.is_empty() {
        return None;
    }
    Some(text)
}

/// The forms of a line with a key: `key=content`, `key=`, `key:{`, `key=content:{`.
#[derive(Clone, Copy, Debug)]
pub enum Form<'s> {
    Content(Text<'s>),
    Empty,
    Open,
    ContentOpen(Text<'s>),
}

/// The form after the key, if it is one. `free`: "free-text content runs to the end of the line".
pub fn form(tail: Tail<'_>, free: bool) -> Option<Form<'_>> {
    match tail {
        Tail::Opens(after) if after.bytes.is_empty() => Some(Form::Open),
        Tail::Opens(_) => None,
        Tail::Equals(content) if content.bytes.is_empty() => Some(Form::Empty),
        Tail::Equals(content) if free || !content.bytes.ends_with(b":{") => Some(Form::Content(content)),
        // "nor is content [empty], so `key=:{` is no form but for free text"
        Tail::Equals(content) => not_empty(content.part(0, content.bytes.len() - 2)).map(Form::ContentOpen),
    }
}

impl Form<'_> {
    pub fn opens(&self) -> bool {
        matches!(self, Form::Open | Form::ContentOpen(_))
    }
}
