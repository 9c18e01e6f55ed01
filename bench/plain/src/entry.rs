//! Entries of conditions.
use crate::draft::{arn_parts, need, ArnPattern, Draft, Piece};
use crate::grammar::{op_of, Base, Cmp, Op, Quant};
use crate::json::{scalar_text, Value};
use crate::keys::Source;
use crate::pattern::Pattern;
use crate::values::{self as value, Address, Range};
use crate::world::World;

/// A condition entry: one operator, one key and its values.
#[derive(Debug)]
pub struct Entry {
    pub op: Op,
    neg: bool,
    pub key: u32,
    fixed: Fixed,
    /// Tests without variables.
    still: Tests,
    /// Drafts with variables.
    moving: Vec<Draft>,
    /// The sources of the variables, and those with the key's.
    pub var_needs: u8,
    pub needs: u8,
    /// The keys of the resource's context that it looks at.
    pub rkeys: Vec<u32>,
}

#[derive(Debug)]
enum Fixed {
    Text,
    Num(Cmp, Vec<i64>),
    Date(Cmp, Vec<i128>),
    Bool(bool, bool),
    Bytes(Vec<Vec<u8>>),
    Ip(Vec<Range>),
}

impl Entry {
    pub fn new(name: &str, key: u32, texts: &[&'static str], old: bool, w: &mut World) -> Entry {
        let op = op_of(name).expect("the operator was tested");
        let mut e = Entry {
            op,
            neg: false,
            key,
            fixed: Fixed::Text,
            still: Tests::default(),
            moving: Vec::new(),
            var_needs: 0,
            needs: need(&w.keys, key),
            rkeys: Vec::new(),
        };
        match op.base {
            Base::Str { neg, like, .. } => {
                e.neg = neg;
                e.drafts(texts, like, old, w);
            }
            Base::Arn { neg } => {
                e.neg = neg;
                e.drafts(texts, true, old, w);
            }
            Base::Num(c) => {
                e.neg = c == Cmp::Ne;
                e.fixed = Fixed::Num(c, texts.iter().map(|t| value::whole(t).unwrap()).collect());
            }
            Base::Date(c) => {
                e.neg = c == Cmp::Ne;
                e.fixed = Fixed::Date(c, texts.iter().map(|t| value::moment(t).unwrap()).collect());
            }
            Base::Bool | Base::Null => {
                let has = |b| texts.iter().any(|t| value::truth(t) == Some(b));
                e.fixed = Fixed::Bool(has(false), has(true));
            }
            Base::Binary => e.fixed = Fixed::Bytes(texts.iter().map(|t| value::bytes(t).unwrap()).collect()),
            Base::Ip { neg } => {
                e.neg = neg;
                e.fixed = Fixed::Ip(texts.iter().map(|t| Range::read(t).unwrap()).collect());
            }
        }
        e.rkeys = e.resource_keys(w);
        e
    }

    /// The keys of the resource's context that it looks at, in their order.
    fn resource_keys(&self, w: &World) -> Vec<u32> {
        let variables = self.moving.iter().flat_map(|d| &d.pieces).filter_map(|p| match *p {
            Piece::Var(k, _) => Some(k),
            _ => None,
        });
        let mut keys: Vec<u32> = std::iter::once(self.key).chain(variables).filter(|k| w.keys.source(*k) == Source::Resource).collect();
        keys.sort_unstable();
        keys.dedup();
        keys
    }

    fn drafts(&mut self, texts: &[&'static str], wild: bool, old: bool, w: &mut World) {
        for t in texts {
            let d = Draft::read(t, wild, old, &mut w.keys);
            let n = d.needs(&w.keys);
            if n == 0 {
                // No variable, or only such that stand for the same text everywhere.
                self.still.add(&self.op, &d, w, 0, 0);
            } else {
                self.var_needs |= n;
                self.needs |= n;
                self.moving.push(d);
            }
        }
        self.still.sort();
    }

    /// The values with variables, resolved for p and r.
    pub fn resolve(&self, w: &World, p: usize, r: usize) -> Tests {
        let mut t = Tests::default();
        for d in &self.moving {
            t.add(&self.op, d, w, p, r);
        }
        t
    }

    fn hit(&self, v: &str, tests: &Tests) -> bool {
        fn ord<T: PartialOrd>(c: Cmp, v: T, l: &[T]) -> bool {
            l.iter().any(|x| match c {
                Cmp::Eq | Cmp::Ne => v == *x,
                Cmp::Lt => v < *x,
                Cmp::Le => v <= *x,
                Cmp::Gt => v > *x,
                Cmp::Ge => v >= *x,
            })
        }
        match &self.fixed {
            Fixed::Text => self.still.hit(v) || tests.hit(v),
            Fixed::Num(c, l) => value::whole(v).is_some_and(|v| ord(*c, v, l)),
            Fixed::Date(c, l) => value::moment(v).is_some_and(|v| ord(*c, v, l)),
            Fixed::Bool(f, t) => match value::truth(v) {
                Some(true) => *t,
                Some(false) => *f,
                None => false,
            },
            Fixed::Bytes(l) => value::bytes(v).is_some_and(|v| l.contains(&v)),
            Fixed::Ip(l) => Address::read(v).is_some_and(|v| l.iter().any(|x| x.holds(v))),
        }
    }

    /// Whether the entry holds for the key's values, with the moving values resolved.
    pub fn holds(&self, values: &[&'static str], tests: &Tests) -> bool {
        if self.op.base == Base::Null {
            return match self.fixed {
                Fixed::Bool(f, t) => {
                    if values.is_empty() {
                        t
                    } else {
                        f
                    }
                }
                _ => unreachable!(),
            };
        }
        if values.is_empty() {
            return self.op.if_exists
                || match self.op.quant {
                    Quant::All => true,
                    Quant::Some => false,
                    Quant::Plain => self.neg,
                };
        }
        let every = match self.op.quant {
            Quant::All => true,
            Quant::Some => false,
            Quant::Plain => self.neg,
        };
        if self.neg && (self.still.lost || tests.lost) {
            return false;
        }
        let sat = |v: &&str| self.hit(v, tests) != self.neg;
        if every {
            values.iter().all(sat)
        } else {
            values.iter().any(sat)
        }
    }

    pub fn at(&self, w: &World, p: usize, r: usize) -> bool {
        let v = w.values(self.key, p, r);
        if self.moving.is_empty() || v.is_empty() {
            self.holds(v, &Tests::default())
        } else {
            self.holds(v, &self.resolve(w, p, r))
        }
    }
}

/// Resolved values; `lost` where one resolves to nothing.
#[derive(Debug, Default)]
pub struct Tests {
    list: Vec<Test>,
    /// Sorted plain texts, where there are many.
    sorted: Vec<String>,
    lost: bool,
}

/// One resolved value of a string or ARN operator.
#[derive(Debug)]
enum Test {
    Plain(String),
    FoldHasher(String),
    Like(Pattern),
    Arn(ArnPattern),
}

impl Tests {
    fn add(&mut self, op: &Op, d: &Draft, w: &World, p: usize, r: usize) {
        let t = match op.base {
            Base::Str { like: true, .. } => d.pattern(w, p, r).map(Test::Like),
            Base::Str { fold: true, .. } => d.string(w, p, r).map(Test::FoldHasher),
            Base::Str { .. } => d.string(w, p, r).map(Test::Plain),
            Base::Arn { .. } => d.arn(w, p, r).map(Test::Arn),
            _ => unreachable!(),
        };
        match t {
            Some(t) => self.list.push(t),
            None => self.lost = true,
        }
    }

    fn sort(&mut self) {
        if self.list.len() > 16 && self.list.iter().all(|t| matches!(t, Test::Plain(_))) {
            for t in self.list.drain(..) {
                if let Test::Plain(s) = t {
                    self.sorted.push(s);
                }
            }
            self.sorted.sort_unstable();
        }
    }

    fn hit(&self, v: &str) -> bool {
        if !self.sorted.is_empty() && self.sorted.binary_search_by(|x| x.as_str().cmp(v)).is_ok() {
            return true;
        }
        let mut parts = None;
        self.list.iter().any(|t| match t {
            Test::Plain(s) => s == v,
            Test::FoldHasher(s) => s.eq_ignore_ascii_case(v),
            Test::Like(g) => g.matches(v),
            Test::Arn(a) => {
                let parts = *parts.get_or_insert_with(|| arn_parts(v));
                match (a, parts) {
                    (_, None) | (ArnPattern::Never, _) => false,
                    (ArnPattern::All, Some(_)) => true,
                    (ArnPattern::Parts(g), Some(x)) => g.iter().zip(x).all(|(g, x)| g.matches(x)),
                }
            }
        })
    }
}

/// The texts of a key's values.
pub fn value_texts(v: &Value) -> Vec<&'static str> {
    match v {
        Value::List(l) => l.iter().map(scalar_text).collect(),
        x => vec![scalar_text(x)],
    }
}
