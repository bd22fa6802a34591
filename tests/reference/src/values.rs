//! Values: decimals, counts, dates, times, types.

/// How many of a decimal's units make one: "kept in ten-thousandths".
pub const ONE: i64 = 10_000;

/// The number that one to eighteen digits make.
fn digits(bytes: &[u8], least: usize, most: usize) -> Option<i64> {
    if bytes.len() < least || bytes.len() > most || !bytes.iter().all(u8::is_ascii_digit) {
        return None;
    }
    Some(bytes.iter().fold(0, |number, &b| number * 10 + (b - b'0') as i64))
}

/// Exactly so many digits.
pub fn exactly(bytes: &[u8], count: usize) -> Option<i64> {
    digits(bytes, count, count)
}

/// "Counts: 1 to 9 digits."
pub fn count(bytes: &[u8]) -> Option<i64> {
    digits(bytes, 1, 9)
}

/// A serial: "1 to 10 digits each".
pub fn serial(bytes: &[u8]) -> Option<i64> {
    digits(bytes, 1, 10)
}

/// "Type is four digits."
pub fn figure_type(bytes: &[u8]) -> Option<i64> {
    exactly(bytes, 4)
}

/// "Decimals: optional `-`, 1 to 7 digits, optionally `.` and 1 to 4 digits. Kept in ten-thousandths."
pub fn decimal(bytes: &[u8]) -> Option<i64> {
    let (negative, unsigned) = match bytes {
        [b'-', after @ ..] => (true, after),
        _ => (false, bytes),
    };
    let value = match unsigned.iter().position(|&b| b == b'.') {
        None => digits(unsigned, 1, 7)? * ONE,
        Some(point) => {
            let fraction = &unsigned[point + 1..];
            let scale = 10_i64.pow(4_u32.saturating_sub(fraction.len() as u32));
            digits(&unsigned[..point], 1, 7)? * ONE + digits(fraction, 1, 4)? * scale
        }
    };
    Some(if negative { -value } else { value })
}

/// "date is eight digits, month 01-12, day 01-31"
pub fn date(bytes: &[u8]) -> Option<i64> {
    let date = exactly(bytes, 8)?;
    let (month, day) = (date / 100 % 100, date % 100);
    if !(1..=12).contains(&month) || !(1..=31).contains(&day) {
        return None;
    }
    Some(date)
}

/// "time six digits, at most 23, 59, 59"
pub fn time(bytes: &[u8]) -> Option<i64> {
    let time = exactly(bytes, 6)?;
    if time / 10_000 > 23 || time / 100 % 100 > 59 || time % 100 > 59 {
        return None;
    }
    Some(time)
}

/// "letters and digits"
pub fn letters_and_digits(bytes: &[u8]) -> bool {
    bytes.iter().all(u8::is_ascii_alphanumeric)
}

/// The bytes 20-7E.
pub fn ascii(bytes: &[u8]) -> bool {
    bytes.iter().all(|b| (0x20..=0x7E).contains(b))
}

/// A sheet: n (1 if none) and the number after `A`. "A0 to A4, or n then A0 or A1 with n one of 4, 9, 16, 25, 36, 49, 64, 81".
pub fn sheet(bytes: &[u8]) -> Option<(i64, i64)> {
    let (times, size) = bytes.split_at(bytes.iter().position(|&b| b == b'A')?);
    let number = match size {
        [b'A', digit @ b'0'..=b'4'] => (digit - b'0') as i64,
        _ => return None,
    };
    if times.is_empty() {
        return Some((1, number));
    }
    let times = match times {
        b"4" => 4,
        b"9" => 9,
        b"16" => 16,
        b"25" => 25,
        b"36" => 36,
        b"49" => 49,
        b"64" => 64,
        b"81" => 81,
        _ => return None,
    };
    if number > 1 {
        return None;
    }
    Some((times, number))
}

/// A scale's p and q (1 if none), or the number of the rule it breaks.
/// "`scale` p, or p/q with p < q, counts 1 to 99,999"
pub fn scale(bytes: &[u8]) -> Result<(i64, i64), u8> {
    let items: Vec<&[u8]> = bytes.split(|&b| b == b'/').collect();
    let (p, q) = match items[..] {
        [p] => (count(p).ok_or(10)?, None),
        [p, q] => (count(p).ok_or(10)?, Some(count(q).ok_or(10)?)),
        _ => return Err(10),
    };
    let in_limits = |number: i64| (1..=99_999).contains(&number);
    if !in_limits(p) || q.is_some_and(|q| !in_limits(q) || p >= q) {
        return Err(11);
    }
    Ok((p, q.unwrap_or(1)))
}

#[cfg(test)]
mod tests {
    use super::*;

    #[test]
    fn sample_rulings() {
        assert_eq!(decimal(b"1234.56"), Some(12_345_600));
        assert_eq!(decimal(b"9999999.9999"), Some(99_999_999_999));
        assert_eq!(decimal(b"-9999999.9999"), Some(-99_999_999_999));
        assert_eq!(decimal(b"-0"), Some(0));
        for wrong in ["12345678", "5.", "", "-", ".5", "+1", "1e3", "1.00000", "--1", "1.2.3", " 1"] {
            assert_eq!(decimal(wrong.as_bytes()), None, "{wrong}");
        }
        assert_eq!(time(b"235959"), Some(235_959));
        assert_eq!(time(b"240000"), None);
        assert_eq!(sheet(b"4A1"), Some((4, 1)));
        for wrong in ["8A1", "4A2", "A5", "A", "04A1", "4A1 ", "1A0", "4", "AA0"] {
            assert_eq!(sheet(wrong.as_bytes()), None, "{wrong}");
        }
        assert_eq!(scale(b"1/100"), Ok((1, 100)));
        assert_eq!(scale(b"50"), Ok((50, 1)));
        assert_eq!(scale(b"5/5"), Err(11));
        assert_eq!(scale(b"1/2/3"), Err(10));
        assert_eq!(scale(b"100000"), Err(11));
    }
}
