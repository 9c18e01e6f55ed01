//! The resources at which elements and entries hold, as rows of bits.
use super::principal::Memo;
use super::shaped::Shaped;
use super::{Classes, Clauses, Engine, Is, Row, Span};
use crate::bits::each_bit;
use crate::draft::NEED_R;
use crate::hashing::Map;

pub(super) enum LocalRow<'a> {
    Skip,
    Full,
    Ref(&'a [u64]),
    Own(Box<[u64]>),
}

impl Engine {
    pub(super) fn text_matches(&self, t: u32, p: usize, r: usize) -> Option<bool> {
        let arn = self.w.resources[r].arn;
        match &self.resource_texts[t as usize].pat {
            Shaped::Lost => None,
            Shaped::Moving(d) => d.pattern(&self.w, p, r).map(|g| g.matches(arn)),
            x => Some(x.matches(arn)),
        }
    }

    pub(super) fn elem_at(&self, e: u32, p: usize, r: usize) -> bool {
        let e = &self.elements[e as usize];
        let mut all = [&e.still, &e.by_r, &e.by_p, &e.by_both].into_iter().flatten();
        match e.is {
            Is::Absent => true,
            Is::Any => all.any(|&t| self.text_matches(t, p, r) == Some(true)),
            Is::None => all.all(|&t| self.text_matches(t, p, r) == Some(false)),
        }
    }

    /// Calls `f` for each resource that the pattern matches.
    pub(super) fn each_match(&self, x: &Shaped, mut f: impl FnMut(usize)) {
        x.each_run(&self.texts, |lo, hi| {
            for &r in &self.text_r[self.text_at[lo] as usize..self.text_at[hi] as usize] {
                f(r as usize)
            }
        })
    }

    /// A moving text resolved for p.
    pub(super) fn resolved(&self, t: u32, p: usize) -> Option<Shaped> {
        match &self.resource_texts[t as usize].pat {
            Shaped::Moving(d) => d.pattern(&self.w, p, 0).map(|g| Shaped::Mixed(Box::new(g))),
            _ => unreachable!(),
        }
    }

    pub(super) fn row(&self, bits: Vec<u64>) -> Row {
        let n: u32 = bits.iter().map(|w| w.count_ones()).sum();
        if n == 0 {
            Row::Empty
        } else if n as usize == self.nr {
            Row::Full
        } else {
            Row::Bits(bits.into_boxed_slice())
        }
    }

    pub(super) fn invert(&self, bits: &mut [u64]) {
        for w in bits.iter_mut() {
            *w = !*w;
        }
        if self.nr % 64 != 0 {
            *bits.last_mut().unwrap() &= (1 << (self.nr % 64)) - 1;
        }
    }

    /// The resources of an element's texts that do not look at the principal.
    pub(super) fn elem_row(&self, i: u32) -> &Row {
        let e = &self.elements[i as usize];
        e.row.get_or_init(|| {
            if e.is == Is::Absent {
                return Row::Full;
            }
            let not = e.is == Is::None;
            let mut bits = vec![0u64; self.rw];
            for &t in &e.still {
                match &self.resource_texts[t as usize].pat {
                    Shaped::Lost if not => return Row::Empty,
                    Shaped::Prefix("") if not => return Row::Empty,
                    Shaped::Prefix("") => return Row::Full,
                    x => self.each_match(x, |r| bits[r / 64] |= 1 << (r % 64)),
                }
            }
            for &t in &e.by_r {
                for r in 0..self.nr {
                    if self.text_matches(t, 0, r).unwrap_or(not) {
                        bits[r / 64] |= 1 << (r % 64)
                    }
                }
            }
            if not {
                self.invert(&mut bits);
            }
            self.row(bits)
        })
    }

    pub(super) fn table(&self, i: u32) -> &Classes {
        let (keys, t) = &self.tables[i as usize];
        t.get_or_init(|| {
            let mut map: Map<Vec<&[&str]>, u32> = Map::default();
            let mut c = Classes { of: Vec::with_capacity(self.nr), rep: Vec::new() };
            for r in 0..self.nr {
                let v: Vec<&[&str]> = keys.iter().map(|&k| self.w.values(k, 0, r)).collect();
                let n = c.rep.len() as u32;
                let id = *map.entry(v).or_insert(n);
                if id == n {
                    c.rep.push(r as u32);
                }
                c.of.push(id);
            }
            c
        })
    }

    /// The resources at which an entry holds that looks at the resource alone.
    pub(super) fn entry_row(&self, i: u32) -> &Row {
        let x = &self.entries[i as usize];
        x.row.get_or_init(|| {
            let t = self.table(x.table);
            let res: Vec<bool> = t.rep.iter().map(|&r| x.e.at(&self.w, 0, r as usize)).collect();
            let mut bits = vec![0u64; self.rw];
            for (r, &c) in t.of.iter().enumerate() {
                bits[r / 64] |= (res[c as usize] as u64) << (r % 64);
            }
            self.row(bits)
        })
    }

    pub(super) fn combo_row(&self, i: u32) -> &Row {
        let c = &self.combos[i as usize];
        c.row.get_or_init(|| {
            let mut bits = match self.elem_row(c.elem) {
                Row::Empty => return Row::Empty,
                Row::Full => self.full().into_vec(),
                Row::Bits(b) => b.to_vec(),
            };
            if !self.and_entries(&mut bits, &c.entries) {
                return Row::Empty;
            }
            self.row(bits)
        })
    }

    pub(super) fn and_entries(&self, bits: &mut [u64], entries: &[u32]) -> bool {
        for &e in entries {
            match self.entry_row(e) {
                Row::Empty => return false,
                Row::Full => {}
                Row::Bits(b) => bits.iter_mut().zip(b.iter()).for_each(|(x, y)| *x &= y),
            }
        }
        true
    }

    #[inline]
    pub(super) fn by_p_hold(&self, s: Span, p: usize, memo: &mut Memo) -> bool {
        self.span(s).iter().all(|&e| {
            let e = e as usize;
            if memo.stamp[e] != p as u32 + 1 {
                memo.stamp[e] = p as u32 + 1;
                memo.val[e] = self.entries[e].e.at(&self.w, p, 0);
            }
            memo.val[e]
        })
    }

    /// The resources at which a statement of the principal's side is alive.
    pub(super) fn local_row(&self, s: u32, p: usize, memo: &mut Memo) -> LocalRow<'_> {
        let x = &self.statements[s as usize];
        if x.dead || !self.by_p_hold(x.by_p, p, memo) {
            return LocalRow::Skip;
        }
        let both = self.span(x.by_both);
        let mut bits = if x.moving {
            match self.moving_row(x, p) {
                None => return LocalRow::Skip,
                Some(bits) => bits,
            }
        } else {
            match self.combo_row(x.combo) {
                Row::Empty => return LocalRow::Skip,
                Row::Full if both.is_empty() => return LocalRow::Full,
                Row::Bits(b) if both.is_empty() => return LocalRow::Ref(b),
                Row::Full => self.full(),
                Row::Bits(b) => b.clone(),
            }
        };
        for &e in both {
            self.and_both(e, p, &mut bits);
        }
        let n: u32 = bits.iter().map(|w| w.count_ones()).sum();
        if n == 0 {
            LocalRow::Skip
        } else if n as usize == self.nr {
            LocalRow::Full
        } else {
            LocalRow::Own(bits)
        }
    }

    /// All resources.
    fn full(&self) -> Box<[u64]> {
        let mut bits = vec![0; self.rw];
        self.invert(&mut bits);
        bits.into()
    }

    /// The resources at which a statement is alive whose texts have to be resolved for p; none where it is nowhere.
    fn moving_row(&self, x: &Clauses, p: usize) -> Option<Box<[u64]>> {
        let e = &self.elements[x.elem as usize];
        let not = e.is == Is::None;
        let mut bits = match self.elem_row(x.elem) {
            Row::Empty if not => return None,
            Row::Empty => vec![0; self.rw].into(),
            Row::Full => self.full(),
            Row::Bits(b) => b.clone(),
        };
        for &t in &e.by_p {
            match self.resolved(t, p) {
                None if not => return None,
                None => {}
                Some(g) if not => self.each_match(&g, |r| bits[r / 64] &= !(1 << (r % 64))),
                Some(g) => self.each_match(&g, |r| bits[r / 64] |= 1 << (r % 64)),
            }
        }
        for &t in &e.by_both {
            for r in 0..self.nr {
                let (w, b) = (r / 64, 1u64 << (r % 64));
                if (bits[w] & b != 0) != not {
                    continue;
                }
                match (self.text_matches(t, p, r), not) {
                    (Some(true), false) => bits[w] |= b,
                    (Some(true), true) | (None, true) => bits[w] &= !b,
                    _ => {}
                }
            }
        }
        self.and_entries(&mut bits, self.span(x.by_r)).then_some(bits)
    }

    /// Leaves the resources at which an entry holds that needs both sides.
    pub(super) fn and_both(&self, e: u32, p: usize, bits: &mut [u64]) {
        let x = &self.entries[e as usize];
        let t = self.table(x.table);
        let n: u32 = bits.iter().map(|w| w.count_ones()).sum();
        let once = if x.e.var_needs & NEED_R == 0 { Some(x.e.resolve(&self.w, p, 0)) } else { None };
        let known = if x.e.var_needs == NEED_R {
            Some(x.resolved.get_or_init(|| t.rep.iter().map(|&r| x.e.resolve(&self.w, p, r as usize)).collect()))
        } else {
            None
        };
        let at = |c: u32| {
            let r = t.rep[c as usize] as usize;
            let v = self.w.values(x.e.key, p, r);
            match (&once, &known) {
                (Some(tests), _) => x.e.holds(v, tests),
                (_, Some(list)) => x.e.holds(v, &list[c as usize]),
                _ => x.e.at(&self.w, p, r),
            }
        };
        let res: Vec<bool> = if t.rep.len() as u32 <= n { (0..t.rep.len() as u32).map(at).collect() } else { Vec::new() };
        for (i, w) in bits.iter_mut().enumerate() {
            let mut keep = 0;
            each_bit(*w, |b| {
                let c = t.of[i * 64 + b];
                let ok = if res.is_empty() { at(c) } else { res[c as usize] };
                keep |= (ok as u64) << b;
            });
            *w = keep;
        }
    }

    /// Whether a resource's own statement, whose still parts hold, is alive for p.
    pub(super) fn held_alive(&self, s: u32, p: usize, memo: &mut Memo) -> bool {
        let x = &self.statements[s as usize];
        self.by_p_hold(x.by_p, p, memo)
            && (!x.moving || self.elem_at(x.elem, p, x.r as usize))
            && self.span(x.by_both).iter().all(|&e| self.entries[e as usize].e.at(&self.w, p, x.r as usize))
    }
}
