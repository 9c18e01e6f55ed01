//! The values of conditions: numbers, truth values, moments, bytes, addresses and ranges.
use std::net::{Ipv4Addr, Ipv6Addr};

pub fn whole(t: &str) -> Option<i64> {
    let b = t.as_bytes();
    let (neg, d) = match b.first() {
        Some(b'-') => (true, &b[1..]),
        _ => (false, b),
    };
    if d.is_empty() {
        return None;
    }
    let mut v: u64 = 0;
    for &c in d {
        if !c.is_ascii_digit() {
            return None;
        }
        // Saturating keeps "too large" while the rest is still looked at.
        v = v.saturating_mul(10).saturating_add((c - b'0') as u64);
    }
    if neg {
        if v <= 1 << 63 {
            Some((v as i64).wrapping_neg())
        } else {
            None
        }
    } else {
        i64::try_from(v).ok()
    }
}

pub fn truth(t: &str) -> Option<bool> {
    if t.eq_ignore_ascii_case("true") {
        Some(true)
    } else if t.eq_ignore_ascii_case("false") {
        Some(false)
    } else {
        None
    }
}

/// Nanoseconds since 1970.
pub fn moment(t: &str) -> Option<i128> {
    if let Some(s) = whole(t) {
        return Some(s as i128 * 1_000_000_000);
    }
    let b = t.as_bytes();
    let midnight = midnight(b.get(..10)?)?;
    if b.len() == 10 {
        return Some(midnight as i128 * 1_000_000_000);
    }
    if b[10] != b'T' || b.get(13) != Some(&b':') {
        return None;
    }
    let (h, min) = (two(b, 11)?, two(b, 14)?);
    let (sec, nanos, i) = seconds(b)?;
    if h > 23 || min > 59 || sec > 59 {
        return None;
    }
    let s = midnight + h * 3600 + min * 60 + sec - offset(&b[i..])?;
    Some(s as i128 * 1_000_000_000 + nanos as i128)
}

/// The seconds of the midnight that begins a day `YYYY-MM-DD`.
fn midnight(b: &[u8]) -> Option<i64> {
    if b[4] != b'-' || b[7] != b'-' {
        return None;
    }
    let (y, m, d) = (num(&b[..4])?, two(b, 5)?, two(b, 8)?);
    let leap = y % 4 == 0 && (y % 100 != 0 || y % 400 == 0);
    let last = match m {
        1 | 3 | 5 | 7 | 8 | 10 | 12 => 31,
        4 | 6 | 9 | 11 => 30,
        2 => 28 + leap as i64,
        _ => return None,
    };
    (1..=last).contains(&d).then(|| days(y, m, d) * 86_400)
}

/// The seconds and nanoseconds behind the minutes, where there are any, and where the offset begins.
fn seconds(b: &[u8]) -> Option<(i64, i64, usize)> {
    if b.get(16) != Some(&b':') {
        return Some((0, 0, 16.min(b.len())));
    }
    let sec = two(b, 17)?;
    if b.get(19) != Some(&b'.') {
        return Some((sec, 0, 19));
    }
    let digits = b[20..].iter().take_while(|c| c.is_ascii_digit()).count();
    if digits == 0 || digits > 9 {
        return None;
    }
    Some((sec, num(&b[20..20 + digits])? * 10i64.pow(9 - digits as u32), 20 + digits))
}

/// The seconds of `Z`, `+hh:mm` or `-hh:mm`.
fn offset(b: &[u8]) -> Option<i64> {
    match b {
        b"Z" => Some(0),
        [sign @ (b'+' | b'-'), _, _, b':', _, _] => {
            let (h, m) = (two(b, 1)?, two(b, 4)?);
            let o = h * 3600 + m * 60;
            (h <= 23 && m <= 59).then_some(if *sign == b'+' { o } else { -o })
        }
        _ => None,
    }
}

/// The text of `aws:CurrentTime`.
pub fn stamp(seconds: u64) -> String {
    let s = seconds as i64;
    let (z, t) = (s.div_euclid(86_400) + 719_468, s.rem_euclid(86_400));
    let era = z.div_euclid(146_097);
    let doe = z.rem_euclid(146_097);
    let yoe = (doe - doe / 1460 + doe / 36_524 - doe / 146_096) / 365;
    let doy = doe - (365 * yoe + yoe / 4 - yoe / 100);
    let mp = (5 * doy + 2) / 153;
    let d = doy - (153 * mp + 2) / 5 + 1;
    let m = if mp < 10 { mp + 3 } else { mp - 9 };
    let y = yoe + era * 400 + (m <= 2) as i64;
    format!("{:04}-{:02}-{:02}T{:02}:{:02}:{:02}Z", y, m, d, t / 3600, t / 60 % 60, t % 60)
}

/// Strict base64: the standard alphabet, padding, unused bits zero.
pub fn bytes(t: &str) -> Option<Vec<u8>> {
    let b = t.as_bytes();
    if b.len() % 4 != 0 {
        return None;
    }
    let mut out = Vec::with_capacity(b.len() / 4 * 3);
    let groups = b.len() / 4;
    for (g, q) in b.chunks_exact(4).enumerate() {
        let pad = if g + 1 < groups {
            0
        } else {
            match (q[2], q[3]) {
                (b'=', b'=') => 2,
                (_, b'=') => 1,
                _ => 0,
            }
        };
        let mut v: u32 = 0;
        for &c in &q[..4 - pad] {
            let d = match c {
                b'A'..=b'Z' => c - b'A',
                b'a'..=b'z' => c - b'a' + 26,
                b'0'..=b'9' => c - b'0' + 52,
                b'+' => 62,
                b'/' => 63,
                _ => return None,
            };
            v = v << 6 | d as u32;
        }
        match pad {
            0 => out.extend_from_slice(&[(v >> 16) as u8, (v >> 8) as u8, v as u8]),
            1 if v & 3 == 0 => out.extend_from_slice(&[(v >> 10) as u8, (v >> 2) as u8]),
            2 if v & 15 == 0 => out.push((v >> 4) as u8),
            _ => return None,
        }
    }
    Some(out)
}

#[derive(Clone, Copy, PartialEq, Debug)]
pub enum Address {
    V4(u32),
    V6(u128),
}

impl Address {
    pub fn read(t: &str) -> Option<Address> {
        if t.as_bytes().contains(&b':') {
            t.parse::<Ipv6Addr>().ok().map(|a| Address::V6(u128::from(a)))
        } else {
            t.parse::<Ipv4Addr>().ok().map(|a| Address::V4(u32::from(a)))
        }
    }
}

#[derive(Clone, Copy, Debug)]
pub struct Range {
    base: Address,
    bits: u32,
}

impl Range {
    pub fn read(t: &str) -> Option<Range> {
        let (a, n) = match t.find('/') {
            None => (t, None),
            Some(i) => (&t[..i], Some(&t[i + 1..])),
        };
        let base = Address::read(a)?;
        let max = match base {
            Address::V4(_) => 32,
            Address::V6(_) => 128,
        };
        let bits = match n {
            None => max,
            Some(n) => {
                let d = n.as_bytes();
                if d.is_empty() || d.len() > 3 || (d[0] == b'0' && d.len() > 1) {
                    return None;
                }
                num(d)? as u32
            }
        };
        if bits > max {
            return None;
        }
        Some(Range { base, bits })
    }

    pub fn holds(&self, a: Address) -> bool {
        match (self.base, a) {
            (Address::V4(x), Address::V4(y)) => self.bits == 0 || (x ^ y) >> (32 - self.bits) == 0,
            (Address::V6(x), Address::V6(y)) => self.bits == 0 || (x ^ y) >> (128 - self.bits) == 0,
            _ => false,
        }
    }
}

fn two(b: &[u8], i: usize) -> Option<i64> {
    num(b.get(i..i + 2)?)
}

fn num(b: &[u8]) -> Option<i64> {
    let mut v = 0;
    for &c in b {
        if !c.is_ascii_digit() {
            return None;
        }
        v = v * 10 + (c - b'0') as i64;
    }
    Some(v)
}

/// Days from 1970-01-01 to the civil date.
fn days(y: i64, m: i64, d: i64) -> i64 {
    let y = if m <= 2 { y - 1 } else { y };
    let era = y.div_euclid(400);
    let yoe = y.rem_euclid(400);
    let doy = (153 * ((m + 9) % 12) + 2) / 5 + d - 1;
    let doe = yoe * 365 + yoe / 4 - yoe / 100 + doy;
    era * 146_097 + doe - 719_468
}

#[cfg(test)]
mod tests {
    use super::*;
    #[test]
    fn rows() {
        assert_eq!(whole("-0"), Some(0));
        assert_eq!(whole("007"), Some(7));
        assert_eq!(whole("9223372036854775808"), None);
        assert_eq!(whole("9223372036854775807"), Some(i64::MAX));
        assert_eq!(whole("-9223372036854775808"), Some(i64::MIN));
        assert_eq!(whole("-9223372036854775809"), None);
        assert_eq!(whole("99999999999999999999999"), None);
        assert_eq!(whole("00000000000000000000000000000000001"), Some(1));
        assert_eq!(whole("+1"), None);
        assert_eq!(whole("-"), None);
        assert_eq!(whole(""), None);
        assert_eq!(truth("TRUE"), Some(true));
        assert_eq!(bytes(""), Some(vec![]));
        assert_eq!(bytes("aGk="), Some(b"hi".to_vec()));
        for t in ["aGk", "aGl=", "=", "====", "a===", "aG=k", "aGk=aGk=", "aGk =", "aGk_"] {
            assert_eq!(bytes(t), None, "{t}");
        }
        assert_eq!(bytes("aA=="), Some(b"h".to_vec()));
        assert_eq!(bytes("aB=="), None);
        assert_eq!(stamp(0), "1970-01-01T00:00:00Z");
        assert_eq!(stamp(1709251199), "2024-02-29T23:59:59Z");
        assert_eq!(stamp(253402300799), "9999-12-31T23:59:59Z");
        assert_eq!(moment("2026-01-01"), Some(1767225600000000000));
        assert_eq!(moment("2024-02-29T23:59:59.5Z"), Some(1709251199500000000));
        assert_eq!(moment("2026-01-01T00:00Z"), Some(1767225600000000000));
        assert_eq!(moment("2026-01-01T01:00:00+01:00"), Some(1767225600000000000));
        assert_eq!(moment("1767225600"), Some(1767225600000000000));
        assert_eq!(moment("2026"), Some(2026000000000));
        assert_eq!(moment("0000-01-01"), Some(-62167219200000000000));
        for t in [
            "2026-01-01T24:00Z",
            "2026-01-01T00:00",
            "2026-01",
            "2026-02-29",
            "2026-01-01T00:00.5Z",
            "2026-01-01T00:00:00.Z",
            "2026-01-01T00:00:00.1234567890Z",
            "2026-01-01T00:00:60Z",
            "2026-01-01T00:00Z ",
            "2026-01-01T00:00+24:00",
            "2026-00-01",
            "2026-1-01",
            "2026-01-01T",
            "2026-01-01T00",
            "2026-01-01T00:0",
        ] {
            assert_eq!(moment(t), None, "{t}");
        }
        for s in [0u64, 1, 951782400, 4102444800, 253402300799, 68169599, 68169600] {
            assert_eq!(moment(&stamp(s)), Some(s as i128 * 1_000_000_000));
        }
        for t in
            ["1:2:3:4:5:6:7::", "::1.2.3.4", "::", "2001:DB8::1", "1:2:3:4:5:6:1.2.3.4", "0.0.0.0", "255.255.255.255", "::1:2:3:4:5:6:7"]
        {
            assert!(Address::read(t).is_some(), "{t}");
        }
        for t in [
            "1:2:3:4:5:6:7:8::",
            "12345::",
            "01.2.3.4",
            "fe80::1%1",
            "1.2.3",
            "1.2.3.4.5",
            "256.1.1.1",
            ":1::",
            "1::2::3",
            "1.2.3.4::",
            "::1.2.3.04",
            "1:2:3:4:5:6:7:1.2.3.4",
            "1:2:3:4:5:6:7::8",
            "",
            ":",
            ":::",
            " 1.2.3.4",
            "1:2:3:4:5:6:7",
            "[::1]",
            "::1.2.3",
        ] {
            assert!(Address::read(t).is_none(), "{t}");
        }
        let holds = |r: &str, a: &str| Range::read(r).unwrap().holds(Address::read(a).unwrap());
        assert!(holds("203.0.113.7", "203.0.113.7"));
        assert!(!holds("203.0.113.7", "203.0.113.8"));
        assert!(holds("10.1.2.3/8", "10.200.0.1"));
        assert!(holds("2001:db8::/32", "2001:db8:0:1::5"));
        assert!(!holds("::/0", "10.0.0.1"));
        assert!(holds("0.0.0.0/0", "10.0.0.1"));
        assert!(!holds("10.0.0.0/8", "::ffff:10.0.0.1"));
        for t in ["10.0.0.0/33", "10.0.0.0/08", "10.0.0.0/", "::/129", "10.0.0.0/+8", "/8", "10.0.0.0/8/8"] {
            assert!(Range::read(t).is_none(), "{t}");
        }
        assert!(Range::read("::/128").is_some() && Range::read("1.1.1.1/0").is_some());
    }
}
