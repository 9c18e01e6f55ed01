//! Texts with variables, and what they become in a request.
use crate::grammar::{form_at, opens, Form};
use crate::keys::{Keys, Source};
use crate::pattern::{Pattern, PatternBuilder};
use crate::world::World;

#[derive(Clone, Copy, Debug)]
pub enum Piece {
    Text(&'static str),
    One,
    Any,
    Var(u32, Option<&'static str>),
}

/// A read text: characters, wildcards and variables.
#[derive(Clone, Debug)]
pub struct Draft {
    pub pieces: Vec<Piece>,
    pub vars: bool,
}

impl Draft {
    pub fn read(text: &'static str, wild: bool, old: bool, keys: &mut Keys) -> Draft {
        let mut d = Draft { pieces: Vec::new(), vars: false };
        let mut rest = text;
        if !old {
            while let Some(i) = opens(rest) {
                d.plain(&rest[..i], wild);
                let (form, n) = form_at(&rest[i..]).expect("the grammar was tested");
                match form {
                    Form::Escaped(s) => d.pieces.push(Piece::Text(s)),
                    Form::Variable(key, default) => {
                        d.vars = true;
                        d.pieces.push(Piece::Var(keys.id(key), default));
                    }
                }
                rest = &rest[i + n..];
            }
        }
        d.plain(rest, wild);
        d
    }

    fn plain(&mut self, t: &'static str, wild: bool) {
        let mut from = 0;
        if wild {
            for (i, c) in t.bytes().enumerate() {
                if c == b'*' || c == b'?' {
                    if from < i {
                        self.pieces.push(Piece::Text(&t[from..i]));
                    }
                    from = i + 1;
                    self.pieces.push(if c == b'*' { Piece::Any } else { Piece::One });
                }
            }
        }
        if from < t.len() {
            self.pieces.push(Piece::Text(&t[from..]));
        }
    }

    /// The sources of its variables, as bits.
    pub fn needs(&self, keys: &Keys) -> u8 {
        let mut n = 0;
        for p in &self.pieces {
            if let Piece::Var(k, _) = *p {
                n |= need(keys, k);
            }
        }
        n
    }

    #[inline]
    fn value(key: u32, default: Option<&'static str>, w: &World, p: usize, r: usize) -> Option<&'static str> {
        match w.values(key, p, r) {
            [one] => Some(one),
            _ => default,
        }
    }

    pub fn pattern(&self, w: &World, p: usize, r: usize) -> Option<Pattern> {
        let mut b = PatternBuilder::new();
        for x in &self.pieces {
            match *x {
                Piece::Text(t) => b.text(t),
                Piece::One => b.one(),
                Piece::Any => b.any(),
                Piece::Var(k, d) => b.text(Self::value(k, d, w, p, r)?),
            }
        }
        Some(b.done())
    }

    /// For drafts without wildcards.
    pub fn string(&self, w: &World, p: usize, r: usize) -> Option<String> {
        let mut s = String::new();
        for x in &self.pieces {
            match *x {
                Piece::Text(t) => s.push_str(t),
                Piece::Var(k, d) => s.push_str(Self::value(k, d, w, p, r)?),
                _ => unreachable!(),
            }
        }
        Some(s)
    }

    pub fn arn(&self, w: &World, p: usize, r: usize) -> Option<ArnPattern> {
        let mut parts: Vec<Pattern> = Vec::new();
        let mut b = PatternBuilder::new();
        let (mut anys, mut others) = (0, 0);
        for x in &self.pieces {
            let mut t = match *x {
                Piece::Text(t) => t,
                Piece::One => {
                    others += 1;
                    b.one();
                    continue;
                }
                Piece::Any => {
                    anys += 1;
                    b.any();
                    continue;
                }
                Piece::Var(k, d) => Self::value(k, d, w, p, r)?,
            };
            others += t.len();
            while parts.len() < 5 {
                match t.split_once(':') {
                    None => break,
                    Some((l, rest)) => {
                        b.text(l);
                        parts.push(std::mem::take(&mut b).done());
                        t = rest;
                    }
                }
            }
            b.text(t);
        }
        if anys == 1 && others == 0 {
            return Some(ArnPattern::All);
        }
        parts.push(b.done());
        Some(if parts.len() == 6 { ArnPattern::Parts(parts) } else { ArnPattern::Never })
    }
}

#[derive(Clone, Debug)]
pub enum ArnPattern {
    All,
    Never,
    Parts(Vec<Pattern>),
}

pub fn arn_parts(t: &str) -> Option<[&str; 6]> {
    let mut out = [""; 6];
    let mut n = 0;
    for x in t.splitn(6, ':') {
        out[n] = x;
        n += 1;
    }
    if n == 6 {
        Some(out)
    } else {
        None
    }
}

pub const NEED_P: u8 = 1;

pub const NEED_R: u8 = 2;

pub fn need(keys: &Keys, k: u32) -> u8 {
    match keys.source(k) {
        Source::World => 0,
        Source::Principal => NEED_P,
        Source::Resource => NEED_R,
    }
}
