//! JSON as the world is written: nested at most 127 deep, of equal names the last one stands, whole
//! numbers of 64 bits apart from others.
use crate::arena::{leak, Arena};

#[derive(Clone, Copy, Debug)]
pub enum Value {
    Null,
    Bool(bool),
    Unsigned(u64),
    Negative(i64),
    Float,
    Text(&'static str),
    List(&'static [Value]),
    Object(&'static [Member]),
}

pub type Member = (&'static str, Value);

impl Value {
    #[inline]
    pub fn text(&self) -> Option<&'static str> {
        match *self {
            Value::Text(s) => Some(s),
            _ => None,
        }
    }
}

/// The value of the bytes, or none where they are no JSON text.
pub fn parse(bytes: &'static [u8]) -> Option<Value> {
    std::str::from_utf8(bytes).ok()?;
    let mut p = Parser { b: bytes, i: 0, vals: Vec::new(), mems: Vec::new(), va: Arena::new(), ma: Arena::new() };
    let v = p.value(127)?;
    p.space();
    if p.i == bytes.len() {
        Some(v)
    } else {
        None
    }
}

struct Parser {
    b: &'static [u8],
    i: usize,
    vals: Vec<Value>,
    mems: Vec<Member>,
    va: Arena<Value>,
    ma: Arena<Member>,
}

const LO: u64 = 0x0101_0101_0101_0101;

const HI: u64 = 0x8080_8080_8080_8080;

impl Parser {
    #[inline(always)]
    fn peek(&self) -> u8 {
        // 0 is no byte of a JSON text outside of strings, so it stands for the end too.
        if self.i < self.b.len() {
            self.b[self.i]
        } else {
            0
        }
    }

    #[inline(always)]
    fn space(&mut self) {
        while matches!(self.peek(), b' ' | b'\n' | b'\t' | b'\r') {
            self.i += 1;
        }
    }

    fn word(&mut self, w: &[u8], v: Value) -> Option<Value> {
        if self.b[self.i..].starts_with(w) {
            self.i += w.len();
            Some(v)
        } else {
            None
        }
    }

    fn value(&mut self, depth: u32) -> Option<Value> {
        self.space();
        match self.peek() {
            b'"' => {
                self.i += 1;
                self.string().map(Value::Text)
            }
            b'{' => {
                if depth == 0 {
                    return None;
                }
                self.i += 1;
                self.object(depth - 1)
            }
            b'[' => {
                if depth == 0 {
                    return None;
                }
                self.i += 1;
                self.list(depth - 1)
            }
            b'0'..=b'9' | b'-' => self.number(),
            b't' => self.word(b"true", Value::Bool(true)),
            b'f' => self.word(b"false", Value::Bool(false)),
            b'n' => self.word(b"null", Value::Null),
            _ => None,
        }
    }

    fn list(&mut self, depth: u32) -> Option<Value> {
        let base = self.vals.len();
        self.space();
        if self.peek() == b']' {
            self.i += 1;
            return Some(Value::List(&[]));
        }
        loop {
            let v = self.value(depth)?;
            self.vals.push(v);
            self.space();
            match self.peek() {
                b',' => self.i += 1,
                b']' => {
                    self.i += 1;
                    let l = self.va.put(&self.vals[base..]);
                    self.vals.truncate(base);
                    return Some(Value::List(l));
                }
                _ => return None,
            }
        }
    }

    fn object(&mut self, depth: u32) -> Option<Value> {
        let base = self.mems.len();
        self.space();
        if self.peek() == b'}' {
            self.i += 1;
            return Some(Value::Object(&[]));
        }
        loop {
            self.space();
            if self.peek() != b'"' {
                return None;
            }
            self.i += 1;
            let k = self.string()?;
            self.space();
            if self.peek() != b':' {
                return None;
            }
            self.i += 1;
            let v = self.value(depth)?;
            self.mems.push((k, v));
            self.space();
            match self.peek() {
                b',' => self.i += 1,
                b'}' => {
                    self.i += 1;
                    self.last_wins(base);
                    let l = self.ma.put(&self.mems[base..]);
                    self.mems.truncate(base);
                    return Some(Value::Object(l));
                }
                _ => return None,
            }
        }
    }

    /// Of members with equal names, keeps the last.
    fn last_wins(&mut self, base: usize) {
        let n = self.mems.len() - base;
        if n <= 16 {
            let m = &self.mems[base..];
            let twice = (1..n).any(|i| m[..i].iter().any(|x| x.0 == m[i].0));
            if !twice {
                return;
            }
        }
        self.mems[base..].sort_by(|x, y| x.0.cmp(y.0));
        let mut to = base;
        for i in base..self.mems.len() {
            if i + 1 < self.mems.len() && self.mems[i].0 == self.mems[i + 1].0 {
                continue;
            }
            self.mems[to] = self.mems[i];
            to += 1;
        }
        self.mems.truncate(to);
    }

    /// The text after an opening quote.
    #[inline]
    fn string(&mut self) -> Option<&'static str> {
        let b = self.b;
        let start = self.i;
        let mut i = start;
        loop {
            while i + 8 <= b.len() {
                let x = u64::from_le_bytes(b[i..i + 8].try_into().unwrap());
                let q = x ^ (LO * b'"' as u64);
                let s = x ^ (LO * b'\\' as u64);
                let hit = ((q.wrapping_sub(LO) & !q) | (s.wrapping_sub(LO) & !s) | (x.wrapping_sub(LO * 0x20) & !x)) & HI;
                if hit == 0 {
                    i += 8;
                } else {
                    // The lowest hit is exact; borrows only spoil later bytes.
                    i += (hit.trailing_zeros() / 8) as usize;
                    break;
                }
            }
            match b.get(i) {
                None => return None,
                Some(b'"') => {
                    self.i = i + 1;
                    // SAFETY: the whole input is UTF-8 and both ends are at quotes.
                    return Some(unsafe { std::str::from_utf8_unchecked(&b[start..i]) });
                }
                Some(b'\\') => return self.escaped(start, i),
                Some(0..=0x1f) => return None,
                Some(_) => i += 1,
            }
        }
    }

    fn hex4(&self, i: usize) -> Option<u32> {
        let h = self.b.get(i..i + 4)?;
        let mut v = 0;
        for &c in h {
            v = v * 16 + (c as char).to_digit(16)?;
        }
        Some(v)
    }

    #[cold]
    fn escaped(&mut self, start: usize, mut i: usize) -> Option<&'static str> {
        let b = self.b;
        let mut out: Vec<u8> = b[start..i].to_vec();
        loop {
            match *b.get(i)? {
                b'"' => {
                    self.i = i + 1;
                    return Some(leak(String::from_utf8(out).ok()?));
                }
                b'\\' => {
                    let c = *b.get(i + 1)?;
                    i += 2;
                    match c {
                        b'"' | b'\\' | b'/' => out.push(c),
                        b'b' => out.push(8),
                        b'f' => out.push(12),
                        b'n' => out.push(10),
                        b'r' => out.push(13),
                        b't' => out.push(9),
                        b'u' => {
                            let mut u = self.hex4(i)?;
                            i += 4;
                            if (0xd800..0xdc00).contains(&u) {
                                if b.get(i..i + 2)? != b"\\u" {
                                    return None;
                                }
                                let l = self.hex4(i + 2)?;
                                if !(0xdc00..0xe000).contains(&l) {
                                    return None;
                                }
                                i += 6;
                                u = 0x10000 + ((u - 0xd800) << 10) + (l - 0xdc00);
                            }
                            let c = char::from_u32(u)?;
                            out.extend_from_slice(c.encode_utf8(&mut [0; 4]).as_bytes());
                        }
                        _ => return None,
                    }
                }
                0..=0x1f => return None,
                c => {
                    out.push(c);
                    i += 1;
                }
            }
        }
    }

    fn number(&mut self) -> Option<Value> {
        let start = self.i;
        let neg = self.peek() == b'-';
        if neg {
            self.i += 1;
        }
        let mut v: u64 = 0;
        let mut fits = true;
        match self.peek() {
            b'0' => self.i += 1,
            b'1'..=b'9' => {
                while let c @ b'0'..=b'9' = self.peek() {
                    match v.checked_mul(10).and_then(|x| x.checked_add((c - b'0') as u64)) {
                        Some(x) => v = x,
                        None => fits = false,
                    }
                    self.i += 1;
                }
            }
            _ => return None,
        }
        let mut whole = true;
        if self.peek() == b'.' {
            whole = false;
            self.i += 1;
            self.digits()?;
        }
        if matches!(self.peek(), b'e' | b'E') {
            whole = false;
            self.i += 1;
            if matches!(self.peek(), b'+' | b'-') {
                self.i += 1;
            }
            self.digits()?;
        }
        if whole && fits {
            if !neg {
                return Some(Value::Unsigned(v));
            }
            if v > 0 && v <= 1 << 63 {
                return Some(Value::Negative((v as i64).wrapping_neg()));
            }
        }
        // SAFETY: only ASCII was passed.
        let t = unsafe { std::str::from_utf8_unchecked(&self.b[start..self.i]) };
        let f: f64 = t.parse().ok()?;
        if f.is_finite() {
            Some(Value::Float)
        } else {
            None
        }
    }

    fn digits(&mut self) -> Option<()> {
        let start = self.i;
        while self.peek().is_ascii_digit() {
            self.i += 1;
        }
        if self.i > start {
            Some(())
        } else {
            None
        }
    }
}

/// The text of a value that is a text, a Boolean or a whole number.
pub fn scalar_text(v: &Value) -> &'static str {
    let mut buf = [0; 24];
    match *v {
        Value::Text(s) => s,
        Value::Bool(true) => "true",
        Value::Bool(false) => "false",
        Value::Unsigned(n) => leak(decimal(&mut buf, n, false).to_string()),
        Value::Negative(n) => leak(decimal(&mut buf, n.unsigned_abs(), true).to_string()),
        _ => unreachable!(),
    }
}

pub fn decimal(buf: &mut [u8; 24], mut n: u64, neg: bool) -> &str {
    let mut i = 24;
    loop {
        i -= 1;
        buf[i] = b'0' + (n % 10) as u8;
        n /= 10;
        if n == 0 {
            break;
        }
    }
    if neg {
        i -= 1;
        buf[i] = b'-';
    }
    std::str::from_utf8(&buf[i..]).unwrap()
}

/// Appends the text as a JSON string without its quotes.
pub fn escape_into(out: &mut Vec<u8>, s: &str) {
    for &c in s.as_bytes() {
        match c {
            b'"' => out.extend_from_slice(b"\\\""),
            b'\\' => out.extend_from_slice(b"\\\\"),
            8 => out.extend_from_slice(b"\\b"),
            9 => out.extend_from_slice(b"\\t"),
            10 => out.extend_from_slice(b"\\n"),
            12 => out.extend_from_slice(b"\\f"),
            13 => out.extend_from_slice(b"\\r"),
            0..=0x1f => {
                out.extend_from_slice(b"\\u00");
                out.push(b"0123456789abcdef"[(c >> 4) as usize]);
                out.push(b"0123456789abcdef"[(c & 15) as usize]);
            }
            _ => out.push(c),
        }
    }
}

#[cfg(test)]
mod tests {
    use super::*;
    fn ok(s: &'static str) -> bool {
        parse(s.as_bytes()).is_some()
    }
    #[test]
    fn reads() {
        for s in
            ["1", "-0", " [1 , 2]\n", "{\"a\":1,\"a\":2}", "\"\\ud83d\\ude00\"", "1e5", "0e999999999999", "1e-99999999999", "\"\u{7f}\""]
        {
            assert!(ok(s), "{s}");
        }
        for s in [
            "",
            "01",
            "1.",
            ".5",
            "+1",
            "[1,]",
            "{\"a\":1,}",
            "\"\\ud83d\"",
            "\"\\udc00\"",
            "\"\u{1}\"",
            "1e400",
            "nul",
            "[1]x",
            "\"abc",
            "\u{feff}1",
            "-",
            "{1:2}",
        ] {
            assert!(!ok(s), "{s}");
        }
        let deep = |n: usize| leak("[".repeat(n) + &"]".repeat(n));
        assert!(ok(deep(127)));
        assert!(!ok(deep(128)));
        match parse(b"{\"a\":1,\"b\":2,\"a\":3}") {
            Some(Value::Object(m)) => {
                assert_eq!(m.len(), 2);
                assert!(m.iter().any(|x| x.0 == "a" && matches!(x.1, Value::Unsigned(3))));
            }
            _ => panic!(),
        }
        assert!(matches!(parse(b"-0"), Some(Value::Float)));
        assert!(matches!(parse(b"18446744073709551615"), Some(Value::Unsigned(u64::MAX))));
        assert!(matches!(parse(b"18446744073709551616"), Some(Value::Float)));
        assert!(matches!(parse(b"-9223372036854775808"), Some(Value::Negative(i64::MIN))));
        assert!(matches!(parse(b"-9223372036854775809"), Some(Value::Float)));
        assert!(matches!(parse(b"\"0123456789\\u0041\\n\xc3\xa9 end of it\""), Some(Value::Text("0123456789A\n\u{e9} end of it"))));
    }
}
