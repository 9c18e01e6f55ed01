//! Patterns: literal runs, `?` and `*`, compiled into segments between stars.

#[derive(Clone, Debug)]
pub struct Pattern {
    lit: String,
    tokens: Vec<Token>,
    segs: Vec<Segment>,
    min: usize,
    shape: Shape,
}

#[derive(Clone, Copy, Debug)]
enum Token {
    Lit(u32, u32),
    Ones(u32),
}

#[derive(Clone, Copy, Debug)]
struct Segment {
    t0: u32,
    t1: u32,
}

#[derive(Clone, Copy, Debug, PartialEq)]
enum Shape {
    /// No wildcard.
    Exact,
    /// A literal and then one star.
    Prefix,
    /// A lone star.
    All,
    Mixed,
}

impl Pattern {
    /// The text read as a pattern, `*` and `?` wild.
    pub fn wild(text: &str) -> Pattern {
        let mut b = PatternBuilder::new();
        push_wild(&mut b, text);
        b.done()
    }

    /// The literal that every matching text begins with.
    pub fn prefix(&self) -> &str {
        match self.tokens.first() {
            Some(&Token::Lit(a, e)) if self.segs[0].t1 > 0 => &self.lit[a as usize..e as usize],
            _ => "",
        }
    }

    /// Whether every text with `prefix` matches.
    pub fn is_prefix(&self) -> bool {
        matches!(self.shape, Shape::Prefix | Shape::All)
    }

    #[inline]
    pub fn matches(&self, text: &str) -> bool {
        match self.shape {
            Shape::Exact => self.lit == text,
            Shape::Prefix => text.as_bytes().starts_with(self.lit.as_bytes()),
            Shape::All => true,
            Shape::Mixed => self.mixed(text),
        }
    }

    fn mixed(&self, text: &str) -> bool {
        let b = text.as_bytes();
        if b.len() < self.min {
            return false;
        }
        let last = self.segs.len() - 1;
        let first = match self.at(self.segs[0], b, 0) {
            Some(i) => i,
            None => return false,
        };
        if last == 0 {
            return first == b.len();
        }
        let end = match self.back(self.segs[last], b) {
            Some(i) if i >= first => i,
            _ => return false,
        };
        let mut pos = first;
        for s in &self.segs[1..last] {
            match self.find(*s, text, pos, end) {
                Some(i) => pos = i,
                None => return false,
            }
        }
        true
    }

    /// Where the segment ends if it stands at `i`.
    #[inline]
    fn at(&self, s: Segment, b: &[u8], mut i: usize) -> Option<usize> {
        for t in &self.tokens[s.t0 as usize..s.t1 as usize] {
            match *t {
                Token::Lit(x, y) => {
                    let l = &self.lit.as_bytes()[x as usize..y as usize];
                    if !b[i..].starts_with(l) {
                        return None;
                    }
                    i += l.len();
                }
                Token::Ones(n) => {
                    for _ in 0..n {
                        i += char_len(*b.get(i)?);
                    }
                }
            }
        }
        Some(i)
    }

    /// Where the segment begins if it stands at the end.
    #[inline]
    fn back(&self, s: Segment, b: &[u8]) -> Option<usize> {
        let mut i = b.len();
        for t in self.tokens[s.t0 as usize..s.t1 as usize].iter().rev() {
            match *t {
                Token::Lit(x, y) => {
                    let l = &self.lit.as_bytes()[x as usize..y as usize];
                    if !b[..i].ends_with(l) {
                        return None;
                    }
                    i -= l.len();
                }
                Token::Ones(n) => {
                    for _ in 0..n {
                        if i == 0 {
                            return None;
                        }
                        i -= 1;
                        while b[i] & 0xc0 == 0x80 {
                            i -= 1;
                        }
                    }
                }
            }
        }
        Some(i)
    }

    /// The end of the first place of the segment in `text[from..end]`.
    fn find(&self, s: Segment, text: &str, from: usize, end: usize) -> Option<usize> {
        let tokens = &self.tokens[s.t0 as usize..s.t1 as usize];
        let b = &text.as_bytes()[..end];
        if let [Token::Lit(x, y)] = *tokens {
            let l = &self.lit[x as usize..y as usize];
            return find_text(text, from, end, l);
        }
        // With a `?`: tries each place, and turns to bit-parallel search where that costs too much.
        let budget = (end - from) * 16 + 256;
        let mut spent = 0;
        let mut i = from;
        while i < end {
            match self.try_at(tokens, b, i, &mut spent) {
                Some(e) => return Some(e),
                None if spent > budget => return self.find_bits(tokens, text, i + char_len(b[i]), end),
                None => i += char_len(b[i]),
            }
        }
        None
    }

    #[inline]
    fn try_at(&self, tokens: &[Token], b: &[u8], mut i: usize, spent: &mut usize) -> Option<usize> {
        for t in tokens {
            match *t {
                Token::Lit(x, y) => {
                    for &c in &self.lit.as_bytes()[x as usize..y as usize] {
                        *spent += 1;
                        if b.get(i) != Some(&c) {
                            return None;
                        }
                        i += 1;
                    }
                }
                Token::Ones(n) => {
                    for _ in 0..n {
                        *spent += 1;
                        i += char_len(*b.get(i)?);
                    }
                }
            }
        }
        Some(i)
    }

    /// Shift-And over characters.
    #[cold]
    fn find_bits(&self, tokens: &[Token], text: &str, from: usize, end: usize) -> Option<usize> {
        let mut m = 0usize;
        let mut set: std::collections::HashMap<char, Vec<usize>> = Default::default();
        let mut ones = Vec::new();
        for t in tokens {
            match *t {
                Token::Lit(x, y) => {
                    for c in self.lit[x as usize..y as usize].chars() {
                        set.entry(c).or_default().push(m);
                        m += 1;
                    }
                }
                Token::Ones(n) => {
                    for _ in 0..n {
                        ones.push(m);
                        m += 1;
                    }
                }
            }
        }
        let w = m.div_ceil(64);
        let mut wild = vec![0u64; w];
        for i in ones {
            wild[i / 64] |= 1 << (i % 64);
        }
        let masks: std::collections::HashMap<char, Vec<u64>> = set
            .into_iter()
            .map(|(c, l)| {
                let mut v = wild.clone();
                for i in l {
                    v[i / 64] |= 1 << (i % 64);
                }
                (c, v)
            })
            .collect();
        let mut ascii: Vec<&[u64]> = vec![&wild; 128];
        for (c, v) in &masks {
            if (*c as usize) < 128 {
                ascii[*c as usize] = v;
            }
        }
        let mut d = vec![0u64; w];
        let (lw, lb) = ((m - 1) / 64, (m - 1) % 64);
        for (i, c) in text[from..end].char_indices() {
            let mask: &[u64] = if (c as usize) < 128 { ascii[c as usize] } else { masks.get(&c).unwrap_or(&wild) };
            let mut carry = 1;
            for (x, k) in d.iter_mut().zip(mask) {
                let up = *x >> 63;
                *x = (*x << 1 | carry) & k;
                carry = up;
            }
            if d[lw] >> lb & 1 == 1 {
                return Some(from + i + c.len_utf8());
            }
        }
        None
    }
}

#[derive(Default)]
pub struct PatternBuilder {
    lit: String,
    tokens: Vec<Token>,
    segs: Vec<Segment>,
    open: u32,
    star: bool,
    min: usize,
}

impl PatternBuilder {
    pub fn new() -> Self {
        Self::default()
    }

    pub fn text(&mut self, s: &str) {
        if s.is_empty() {
            return;
        }
        self.star = false;
        self.min += s.len();
        let a = self.lit.len() as u32;
        self.lit.push_str(s);
        let e = self.lit.len() as u32;
        if self.tokens.len() as u32 > self.open {
            if let Some(Token::Lit(_, x)) = self.tokens.last_mut() {
                *x = e;
                return;
            }
        }
        self.tokens.push(Token::Lit(a, e));
    }

    pub fn one(&mut self) {
        self.star = false;
        self.min += 1;
        if self.tokens.len() as u32 > self.open {
            if let Some(Token::Ones(n)) = self.tokens.last_mut() {
                *n += 1;
                return;
            }
        }
        self.tokens.push(Token::Ones(1));
    }

    pub fn any(&mut self) {
        if self.star {
            return;
        }
        self.star = true;
        let n = self.tokens.len() as u32;
        self.segs.push(Segment { t0: self.open, t1: n });
        self.open = n;
    }

    pub fn done(mut self) -> Pattern {
        let n = self.tokens.len() as u32;
        self.segs.push(Segment { t0: self.open, t1: n });
        let plain = self.tokens.iter().all(|t| matches!(t, Token::Lit(..)));
        let shape = match (self.segs.len(), plain) {
            (1, true) => Shape::Exact,
            (2, true) if self.segs[1].t0 == self.segs[1].t1 => {
                if self.tokens.is_empty() {
                    Shape::All
                } else {
                    Shape::Prefix
                }
            }
            _ => Shape::Mixed,
        };
        Pattern { lit: self.lit, tokens: self.tokens, segs: self.segs, min: self.min, shape }
    }
}

/// Reads the text into the builder with `*` and `?` wild.
pub fn push_wild(b: &mut PatternBuilder, text: &str) {
    let mut from = 0;
    for (i, c) in text.bytes().enumerate() {
        if c == b'*' || c == b'?' {
            b.text(&text[from..i]);
            from = i + 1;
            if c == b'*' {
                b.any()
            } else {
                b.one()
            }
        }
    }
    b.text(&text[from..]);
}

fn find_text(text: &str, from: usize, end: usize, l: &str) -> Option<usize> {
    let (b, n) = (text.as_bytes(), l.as_bytes());
    if end - from < n.len() {
        return None;
    }
    // Short work by hand; the linear search of the standard library where that fails.
    let c0 = n[0];
    let stop = end - n.len();
    let mut spent = 0usize;
    let mut i = from;
    while i <= stop {
        match b[i..=stop].iter().position(|&c| c == c0) {
            None => return None,
            Some(k) => i += k,
        }
        let mut j = 1;
        while j < n.len() && b[i + j] == n[j] {
            j += 1;
        }
        if j == n.len() {
            return Some(i + n.len());
        }
        i += 1;
        spent += j;
        if spent > 256 + 4 * (i - from) {
            while !text.is_char_boundary(i) {
                i += 1;
            }
            if i > end {
                return None;
            }
            return text[i..end].find(l).map(|k| i + k + n.len());
        }
    }
    None
}

#[inline(always)]
fn char_len(b: u8) -> usize {
    if b < 0x80 {
        1
    } else if b < 0xe0 {
        2
    } else if b < 0xf0 {
        3
    } else {
        4
    }
}

#[cfg(test)]
mod tests {
    use super::*;
    fn m(p: &str, t: &str) -> bool {
        Pattern::wild(p).matches(t)
    }
    fn slow(p: &[char], t: &[char]) -> bool {
        let mut d = vec![vec![false; t.len() + 1]; p.len() + 1];
        d[0][0] = true;
        for i in 1..=p.len() {
            for j in 0..=t.len() {
                d[i][j] = match p[i - 1] {
                    '*' => d[i - 1][j] || (j > 0 && d[i][j - 1]),
                    '?' => j > 0 && d[i - 1][j - 1],
                    c => j > 0 && t[j - 1] == c && d[i - 1][j - 1],
                };
            }
        }
        d[p.len()][t.len()]
    }
    #[test]
    fn rows() {
        assert!(!m("a*ab", "ab") && m("a*ab", "aab"));
        assert!(m("*", "") && !m("?", "") && m("?", "\u{e9}") && m("a**b", "ab"));
        assert!(m("", "") && !m("", "a"));
        assert!(m(&"*".repeat(4000), ""));
        assert!(!m(&"?".repeat(4000), &"a".repeat(3999)) && m(&"?".repeat(4000), &"a".repeat(4000)));
        let p = "a*".repeat(1000) + "b";
        let t = "a".repeat(4000);
        assert!(!m(&p, &t) && m(&p, &(t + "b")));
        let p = format!("*{}b*", "a?".repeat(300));
        assert!(!m(&p, &"a".repeat(100_000)));
        assert!(m(&p, &("a".repeat(100_000) + "b")));
        let p = format!("*{}b*", "a".repeat(3000));
        assert!(!m(&p, &"a".repeat(100_000)));
        assert!(m(&p, &("a".repeat(100_000) + "b")));
    }
    #[test]
    fn random() {
        let mut x = 88172645463325252u64;
        let mut r = |n: usize| {
            x ^= x << 13;
            x ^= x >> 7;
            x ^= x << 17;
            (x % n as u64) as usize
        };
        for round in 0..400_000 {
            let (pl, tl) = if round % 50 == 0 { (40, 200) } else { (9, 10) };
            let p: Vec<char> = (0..r(pl)).map(|_| ['a', 'a', 'b', '\u{e9}', '*', '?', '\u{1f600}'][r(7)]).collect();
            let t: Vec<char> = (0..r(tl)).map(|_| ['a', 'a', 'a', 'b', '\u{e9}', '\u{1f600}'][r(6)]).collect();
            let (ps, ts) = (p.iter().collect::<String>(), t.iter().collect::<String>());
            assert_eq!(m(&ps, &ts), slow(&p, &t), "{ps} {ts}");
        }
        // The fallbacks.
        for _ in 0..3000 {
            let k = r(30) + 1;
            let p: Vec<char> = "*".chars().chain((0..k).map(|_| ['a', 'a', 'a', '?', '\u{e9}'][r(5)])).chain("b*".chars()).collect();
            let t: Vec<char> = (0..400).map(|_| ['a', 'a', 'a', 'a', 'a', 'a', 'b', '\u{e9}'][r(8)]).collect();
            let (ps, ts) = (p.iter().collect::<String>(), t.iter().collect::<String>());
            assert_eq!(m(&ps, &ts), slow(&p, &t), "{ps} {ts}");
        }
    }
}
