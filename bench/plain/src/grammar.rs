//! The grammars inside a document: actions, variables, operators.

pub fn action_pattern(t: &str) -> bool {
    if t == "*" {
        return true;
    }
    let b = t.as_bytes();
    let mut i = 0;
    while i < b.len() && ACTION_BYTES[b[i] as usize] & 1 != 0 {
        i += 1;
    }
    if i == 0 || i + 1 >= b.len() || b[i] != b':' {
        return false;
    }
    b[i + 1..].iter().all(|&c| ACTION_BYTES[c as usize] & 2 != 0)
}

/// 1: may stand in an action's prefix, 2: in its name, both with wildcards.
const ACTION_BYTES: [u8; 256] = {
    let mut t = [0; 256];
    let mut c = 0;
    while c < 256 {
        let b = c as u8;
        if b.is_ascii_alphanumeric() || b == b'-' || b == b'*' || b == b'?' {
            t[c] = 3;
        } else if b == b'_' || b == b'.' {
            t[c] = 2;
        }
        c += 1;
    }
    t
};

pub fn aws_text(t: &str) -> bool {
    let b = t.as_bytes();
    t == "*"
        || (t.starts_with("arn:") && b.iter().filter(|&&c| c == b':').count() >= 5 && !b.iter().any(|&c| c == b'*' || c == b'?'))
        || (!b.is_empty() && b.len() <= 128 && b.iter().all(|c| c.is_ascii_alphanumeric()))
}

/// Where the first `${` begins.
#[inline]
pub fn opens(t: &str) -> Option<usize> {
    let b = t.as_bytes();
    if !b.contains(&b'$') {
        return None;
    }
    t.find("${")
}

/// One variable form at the start of `t`, which begins with `${`.
pub enum Form<'a> {
    Escaped(&'static str),
    Variable(&'a str, Option<&'a str>),
}

/// The form and its length.
pub fn form_at(t: &str) -> Option<(Form<'_>, usize)> {
    let b = t.as_bytes();
    let esc = |s| Some((Form::Escaped(s), 4));
    if b.len() >= 4 && b[3] == b'}' {
        match b[2] {
            b'*' => return esc("*"),
            b'?' => return esc("?"),
            b'$' => return esc("$"),
            _ => {}
        }
    }
    let mut i = 2;
    while i < b.len() && !matches!(b[i], b'$' | b'{' | b'}' | b',' | b'\'' | b'*' | b'?') {
        i += 1;
    }
    if i == 2 {
        return None;
    }
    let key = &t[2..i];
    match b.get(i) {
        Some(b'}') => Some((Form::Variable(key, None), i + 1)),
        Some(b',') => {
            i += 1;
            while b.get(i) == Some(&b' ') {
                i += 1;
            }
            if b.get(i) != Some(&b'\'') {
                return None;
            }
            let start = i + 1;
            let end = start + b[start..].iter().position(|&c| c == b'\'')?;
            if b.get(end + 1) != Some(&b'}') {
                return None;
            }
            Some((Form::Variable(key, Some(&t[start..end])), end + 2))
        }
        _ => None,
    }
}

pub fn variables_ok(t: &str, first: usize) -> bool {
    let mut i = first;
    loop {
        match form_at(&t[i..]) {
            None => return false,
            Some((_, n)) => i += n,
        }
        match opens(&t[i..]) {
            None => return true,
            Some(k) => i += k,
        }
    }
}

#[derive(Clone, Copy, PartialEq, Eq, Debug)]
pub struct Op {
    pub base: Base,
    pub quant: Quant,
    pub if_exists: bool,
}

#[derive(Clone, Copy, PartialEq, Eq, Debug)]
pub enum Base {
    Str { neg: bool, fold: bool, like: bool },
    Num(Cmp),
    Date(Cmp),
    Bool,
    Binary,
    Ip { neg: bool },
    Arn { neg: bool },
    Null,
}

#[derive(Clone, Copy, PartialEq, Eq, Debug)]
pub enum Cmp {
    Eq,
    Ne,
    Lt,
    Le,
    Gt,
    Ge,
}

#[derive(Clone, Copy, PartialEq, Eq, Debug)]
pub enum Quant {
    Plain,
    All,
    Some,
}

pub fn op_of(name: &str) -> Option<Op> {
    let (quant, rest) = if let Some(r) = name.strip_prefix("ForAllValues:") {
        (Quant::All, r)
    } else if let Some(r) = name.strip_prefix("ForAnyValue:") {
        (Quant::Some, r)
    } else {
        (Quant::Plain, name)
    };
    let (rest, if_exists) = match rest.strip_suffix("IfExists") {
        Some(r) => (r, true),
        None => (rest, false),
    };
    use Cmp::*;
    let st = |neg, fold, like| Base::Str { neg, fold, like };
    let base = match rest {
        "StringEquals" => st(false, false, false),
        "StringNotEquals" => st(true, false, false),
        "StringEqualsIgnoreCase" => st(false, true, false),
        "StringNotEqualsIgnoreCase" => st(true, true, false),
        "StringLike" => st(false, false, true),
        "StringNotLike" => st(true, false, true),
        "NumericEquals" => Base::Num(Eq),
        "NumericNotEquals" => Base::Num(Ne),
        "NumericLessThan" => Base::Num(Lt),
        "NumericLessThanEquals" => Base::Num(Le),
        "NumericGreaterThan" => Base::Num(Gt),
        "NumericGreaterThanEquals" => Base::Num(Ge),
        "DateEquals" => Base::Date(Eq),
        "DateNotEquals" => Base::Date(Ne),
        "DateLessThan" => Base::Date(Lt),
        "DateLessThanEquals" => Base::Date(Le),
        "DateGreaterThan" => Base::Date(Gt),
        "DateGreaterThanEquals" => Base::Date(Ge),
        "Bool" => Base::Bool,
        "BinaryEquals" => Base::Binary,
        "IpAddress" => Base::Ip { neg: false },
        "NotIpAddress" => Base::Ip { neg: true },
        "ArnEquals" | "ArnLike" => Base::Arn { neg: false },
        "ArnNotEquals" | "ArnNotLike" => Base::Arn { neg: true },
        "Null" if quant == Quant::Plain && !if_exists => Base::Null,
        _ => return None,
    };
    Some(Op { base, quant, if_exists })
}
