//! A pattern by its shape, and the texts of a sorted list that it matches.
use crate::draft::Draft;
use crate::pattern::Pattern;

/// A pattern by its shape.
pub(super) enum Shaped {
    Exact(&'static str),
    /// A literal and one star.
    Prefix(&'static str),
    Mixed(Box<Pattern>),
    /// A text that resolves to nothing.
    Lost,
    /// A text that has to be resolved for a principal or a resource.
    Moving(Box<Draft>),
}

impl Shaped {
    /// A text without variables.
    pub(super) fn read(t: &'static str) -> Shaped {
        match t.bytes().position(|c| c == b'*' || c == b'?') {
            None => Shaped::Exact(t),
            Some(i) if i + 1 == t.len() && t.as_bytes()[i] == b'*' => Shaped::Prefix(&t[..i]),
            _ => Shaped::Mixed(Box::new(Pattern::wild(t))),
        }
    }

    pub(super) fn prefix(&self) -> &str {
        match self {
            Shaped::Exact(t) | Shaped::Prefix(t) => t,
            Shaped::Mixed(g) => g.prefix(),
            _ => "",
        }
    }

    #[inline]
    pub(super) fn matches(&self, t: &str) -> bool {
        match self {
            Shaped::Exact(x) => *x == t,
            Shaped::Prefix(x) => t.as_bytes().starts_with(x.as_bytes()),
            Shaped::Mixed(g) => g.matches(t),
            _ => false,
        }
    }

    /// Gives the runs of places in the sorted list whose texts match.
    pub(super) fn each_run(&self, list: &[&str], mut f: impl FnMut(usize, usize)) {
        let p = self.prefix();
        let lo = if p.is_empty() { 0 } else { list.partition_point(|t| *t < p) };
        if let Shaped::Exact(_) = self {
            // Equal texts follow each other.
            let n = list[lo..].iter().take_while(|t| **t == p).count();
            if n > 0 {
                f(lo, lo + n)
            }
            return;
        }
        let hi = if p.is_empty() { list.len() } else { lo + list[lo..].partition_point(|t| t.as_bytes().starts_with(p.as_bytes())) };
        match self {
            Shaped::Prefix(_) if lo < hi => f(lo, hi),
            Shaped::Mixed(g) if g.is_prefix() && lo < hi => f(lo, hi),
            Shaped::Mixed(g) => {
                for i in lo..hi {
                    if g.matches(list[i]) {
                        f(i, i + 1)
                    }
                }
            }
            _ => {}
        }
    }
}
