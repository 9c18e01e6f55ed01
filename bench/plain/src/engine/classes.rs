//! Classes of resources under which the same statements are alive, and the decisions of all actions on them.
use super::principal::*;
use super::rows::LocalRow;
use super::{Engine, Span};
use crate::bits::{each_bit, transpose64, words};
use crate::threads::on_threads;
use std::sync::Mutex;

/// A resource as a class sees it: its statements that are alive, among those of all.
struct At {
    r: usize,
    same: bool,
    levels: u32,
    control: Span,
    own: Span,
}

fn within<T>(list: &[T], span: Span) -> &[T] {
    &list[span.0 as usize..span.1 as usize]
}

#[inline(always)]
fn or<const N: usize>(x: &mut [u64; N], y: &[u64; N]) {
    x.iter_mut().zip(y).for_each(|(x, y)| *x |= y);
}

#[inline(always)]
fn and<const N: usize>(x: &mut [u64; N], y: &[u64; N]) {
    x.iter_mut().zip(y).for_each(|(x, y)| *x &= y);
}

impl Engine {
    /// Puts the resources into classes.
    pub(super) fn classes(&self, p: usize, st: &mut State, rows: &[LocalRow]) {
        self.living_by_resource(st, rows);
        st.rc_of.clear();
        st.rep.clear();
        st.xs.clear();
        st.ctrl_at.clear();
        st.res_at.clear();
        st.same.clear();
        let cap = (self.nr * 2).next_power_of_two().max(16);
        st.tab.clear();
        st.tab.resize(cap, u32::MAX);
        let account = self.w.principals[p].account;
        let (mut ci, mut ri) = (0, 0);
        for r in 0..self.nr {
            let (c0, r0) = (ci, ri);
            while ci < st.ctrl_live.len() && self.statements[st.ctrl_live[ci] as usize].r == r as u32 {
                ci += 1;
            }
            while ri < st.res_live.len() && self.statements[st.res_live[ri].0 as usize].r == r as u32 {
                ri += 1;
            }
            let same = self.w.resources[r].account == account;
            let at = At { r, same, levels: self.control_levels(r), control: (c0 as u32, ci as u32), own: (r0 as u32, ri as u32) };
            let class = self.class_of(st, &at);
            st.rc_of.push(class);
        }
    }

    /// The bits of the living statements, by resource.
    fn living_by_resource(&self, st: &mut State, rows: &[LocalRow]) {
        let xw = words(rows.len());
        st.xw = xw;
        let room = self.nr.div_ceil(64) * 64 * xw;
        if st.xr.len() < room {
            st.xr.resize(room, 0);
        }
        let mut block = [0u64; 64];
        for (i, part) in rows.chunks(64).enumerate() {
            for b in 0..self.rw {
                let mut any = 0;
                for (k, r) in part.iter().enumerate() {
                    block[k] = match r {
                        LocalRow::Ref(x) => x[b],
                        LocalRow::Own(x) => x[b],
                        _ => unreachable!(),
                    };
                    any |= block[k];
                }
                block[part.len()..].fill(0);
                if any != 0 {
                    transpose64(&mut block);
                }
                for (k, w) in block.iter().enumerate() {
                    st.xr[(b * 64 + k) * xw + i] = *w;
                }
            }
        }
    }

    /// The class of a resource, a new one where none is alike.
    fn class_of(&self, st: &mut State, at: &At) -> u32 {
        let (new, mask) = (st.rep.len() as u32, st.tab.len() - 1);
        let mut i = self.hash_of(st, at) & mask;
        while st.tab[i] != u32::MAX {
            if self.is_alike(st, st.tab[i] as usize, at) {
                return st.tab[i];
            }
            i = (i + 1) & mask;
        }
        st.tab[i] = new;
        st.rep.push(at.r as u32);
        st.xs.extend_from_slice(&st.xr[at.r * st.xw..at.r * st.xw + st.xw]);
        st.ctrl_at.push(at.control);
        st.res_at.push(at.own);
        st.same.push(at.same);
        new
    }

    fn hash_of(&self, st: &State, at: &At) -> usize {
        let sealed = self.w.resources[at.r].sealed;
        let mut h = (at.levels as u64) << 2 | (at.same as u64) << 1 | sealed as u64;
        let mut mix = |w: u64| h = (h ^ w).wrapping_mul(0x9E37_79B9_7F4A_7C15).rotate_left(29);
        st.xr[at.r * st.xw..at.r * st.xw + st.xw].iter().for_each(|w| mix(*w));
        within(&st.ctrl_live, at.control).iter().for_each(|&s| mix(self.sort_of(s, 0)));
        within(&st.res_live, at.own).iter().for_each(|&(s, g)| mix(self.sort_of(s, g)));
        (h.wrapping_mul(0xD6E8_FEB8_6659_FD93) >> 32) as usize
    }

    fn is_alike(&self, st: &State, class: usize, at: &At) -> bool {
        let (key, other) = (&st.xr[at.r * st.xw..at.r * st.xw + st.xw], st.rep[class] as usize);
        let (ca, cb) = (within(&st.ctrl_live, st.ctrl_at[class]), within(&st.res_live, st.res_at[class]));
        let (da, db) = (within(&st.ctrl_live, at.control), within(&st.res_live, at.own));
        // Not by `==`: a call that compares no words at a dangling place can be slow.
        st.xs[class * st.xw..class * st.xw + st.xw].iter().zip(key).all(|(x, y)| x == y)
            && st.same[class] == at.same
            && self.w.resources[other].sealed == self.w.resources[at.r].sealed
            && self.control_levels(other) == at.levels
            && ca.len() == da.len()
            && cb.len() == db.len()
            && ca.iter().zip(da).all(|(&s, &t)| self.sort_of(s, 0) == self.sort_of(t, 0))
            && cb.iter().zip(db).all(|(x, y)| self.sort_of(x.0, x.1) == self.sort_of(y.0, y.1))
    }

    /// All that matters of a living statement of a resource: its actions, its place with effect, its grant.
    #[inline]
    pub(super) fn sort_of(&self, s: u32, g: u8) -> u64 {
        let x = &self.statements[s as usize];
        (x.ae as u64) << 32 | (x.kind as u64) << 2 | g as u64
    }

    pub(super) fn control_levels(&self, r: usize) -> u32 {
        let x = &self.w.resources[r];
        if x.control_levels == 0 || self.w.accounts[x.account as usize].management {
            0
        } else {
            x.control_levels
        }
    }

    pub(super) fn planes(&self, st: &mut State, threads: usize) {
        let nrc = st.rep.len();
        let n = self.acw * nrc;
        let (mut allow, mut deny) = (std::mem::take(&mut st.allow), std::mem::take(&mut st.deny));
        allow.resize(n, 0);
        deny.resize(n, 0);
        let block = self.acw.min(8);
        let run = |i: usize, a: &mut [u64], d: &mut [u64]| match block {
            1 => self.block::<1>(st, i, a, d),
            2 => self.block::<2>(st, i, a, d),
            4 => self.block::<4>(st, i, a, d),
            _ => self.block::<8>(st, i, a, d),
        };
        let parts: Vec<_> = allow[..n].chunks_mut(block * nrc).zip(deny[..n].chunks_mut(block * nrc)).map(Mutex::new).collect();
        on_threads(threads, parts.len(), |i| {
            let mut g = parts[i].lock().unwrap();
            let (a, d) = &mut *g;
            run(i, a, d);
        });
        drop(parts);
        st.allow = allow;
        st.deny = deny;
    }

    /// N words of an action element, from word w0 on.
    #[inline(always)]
    fn bits_of<const N: usize>(&self, ae: u32, w0: usize) -> &[u64; N] {
        self.ae[ae as usize * self.acw + w0..][..N].try_into().unwrap()
    }

    /// The actions that each level of a class's RCPs allows; those that one denies are added to `deny`.
    #[inline(always)]
    fn control_block<const N: usize>(&self, st: &State, rc: usize, w0: usize, deny: &mut [u64; N]) -> [u64; N] {
        let levels = self.control_levels(st.rep[rc] as usize);
        let mut c = [!0u64; N];
        if levels == 0 {
            return c;
        }
        let (mut seen, mut last, mut t) = (0, u32::MAX, [!0u64; N]);
        for &s in within(&st.ctrl_live, st.ctrl_at[rc]) {
            let x = &self.w.statements[s as usize];
            let bits = self.bits_of(self.statements[s as usize].ae, w0);
            if x.deny {
                or(deny, bits);
                continue;
            }
            if x.level != last {
                and(&mut c, &t);
                t = [0; N];
                last = x.level;
                seen += 1;
            }
            or(&mut t, bits);
        }
        and(&mut c, &t);
        if seen == levels {
            c
        } else {
            [0; N]
        }
    }

    /// The decisions of N words of action classes, for all classes of resources.
    pub(super) fn block<const N: usize>(&self, st: &State, wb: usize, allow: &mut [u64], deny: &mut [u64]) {
        let nrc = st.rep.len();
        let w0 = wb * N;
        let ae = |i: u32| self.bits_of::<N>(i, w0);
        let mut base = vec![[0u64; N]; (ORG + st.org_slots) as usize];
        if !st.boundary {
            base[BOUNDARY as usize] = [!0; N];
        }
        if !st.session {
            base[SESSION as usize] = [!0; N];
        }
        for l in &st.always {
            or(&mut base[l.slot as usize], ae(l.ae));
        }
        let mut acc = base.clone();
        for rc in 0..nrc {
            acc.copy_from_slice(&base);
            for (i, w) in st.xs[rc * st.xw..rc * st.xw + st.xw].iter().enumerate() {
                each_bit(*w, |b| {
                    let l = st.locals[i * 64 + b];
                    or(&mut acc[l.slot as usize], ae(l.ae));
                });
            }
            let r = st.rep[rc] as usize;
            let c = self.control_block(st, rc, w0, &mut acc[DENY as usize]);
            for &(s, g) in &st.res_live[st.res_at[rc].0 as usize..st.res_at[rc].1 as usize] {
                let slot = if self.w.statements[s as usize].deny { DENY } else { [ACCOUNT, ACCOUNT, ROLE, DIRECT][g as usize] };
                or(&mut acc[slot as usize], ae(self.statements[s as usize].ae));
            }
            let (same, sealed) = (st.same[rc], self.w.resources[r].sealed);
            for k in 0..N {
                let at = |s: u32| acc[s as usize][k];
                let mut o = if st.org_dead { 0 } else { c[k] };
                for s in 0..st.org_slots {
                    o &= at(ORG + s);
                }
                let (bs, gr) = (at(BOUNDARY) & at(SESSION), at(ROLE) | at(DIRECT) | at(ACCOUNT));
                let own = at(IDENTITY) & bs;
                let ok = if !same { own & gr } else { (if sealed { own & gr } else { own }) | at(DIRECT) | (at(ROLE) & bs) };
                let d = at(DENY);
                deny[k * nrc + rc] = d;
                allow[k * nrc + rc] = o & ok & !d;
            }
        }
    }
}
