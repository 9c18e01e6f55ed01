//! All that is known of one principal: its living statements, classes of resources, decisions.
use super::rows::LocalRow;
use super::{Engine, Span};
use crate::bits::{each_bit, transpose64, words};
use crate::decide::principal_holds;
use crate::document::Layer;
use crate::hashing::Map;
use crate::threads::on_threads;
use std::sync::Mutex;

/// All that is known of one principal.
#[derive(Default)]
pub struct State {
    pub p: usize,
    pub(super) org_slots: u32,
    pub(super) org_dead: bool,
    pub(super) boundary: bool,
    pub(super) session: bool,
    /// Statements alive for some resources, and for all.
    pub locals: Vec<Local>,
    pub always: Vec<Local>,
    pub xw: usize,
    /// Class of each resource; classes with a resource, their living statements and flags.
    pub rc_of: Vec<u32>,
    pub rep: Vec<u32>,
    pub xs: Vec<u64>,
    pub(super) ctrl_live: Vec<u32>,
    pub(super) res_live: Vec<(u32, u8)>,
    pub(super) ctrl_at: Vec<Span>,
    pub(super) res_at: Vec<Span>,
    pub(super) same: Vec<bool>,
    pub allow: Vec<u64>,
    pub deny: Vec<u64>,
    // Scratch.
    pub(super) cand: Vec<(u32, u8)>,
    pub(super) xr: Vec<u64>,
    pub(super) tab: Vec<u32>,
}

#[derive(Clone, Copy)]
pub struct Local {
    pub stmt: u32,
    pub(super) ae: u32,
    pub(super) slot: u32,
}

/// Remembered entries of one principal.
pub struct Memo {
    pub(super) stamp: Vec<u32>,
    pub(super) val: Vec<bool>,
}

pub const DENY: u32 = 0;

pub(super) const IDENTITY: u32 = 1;

pub(super) const BOUNDARY: u32 = 2;

pub(super) const SESSION: u32 = 3;

pub(super) const DIRECT: u32 = 4;

pub(super) const ROLE: u32 = 5;

pub(super) const ACCOUNT: u32 = 6;

pub(super) const ORG: u32 = 7;

impl State {
    pub fn nrc(&self) -> usize {
        self.rep.len()
    }

    /// No cell has more matched statements of one kind of living: everywhere, or not.
    pub fn most_live(&self) -> usize {
        let held = (0..self.nrc())
            .map(|c| (self.ctrl_at[c].1 - self.ctrl_at[c].0 + self.res_at[c].1 - self.res_at[c].0) as usize)
            .max()
            .unwrap_or(0);
        self.always.len().max(self.locals.len() + held)
    }
}

impl Engine {
    /// Finds all of p, on several threads where that is asked for.
    pub fn build(&self, p: usize, st: &mut State, memo: &mut Memo, threads: usize, planes: bool) {
        let pr = &self.w.principals[p];
        let acc = &self.w.accounts[pr.account as usize];
        let org = if acc.management { 0..0 } else { acc.org.clone() };
        let n_org = if acc.management { 0 } else { acc.org_levels };
        st.p = p;
        st.boundary = pr.has_boundary;
        st.session = pr.has_session;
        st.locals.clear();
        st.always.clear();
        let all = org.chain(pr.identity.clone()).chain(pr.boundary.clone()).chain(pr.session.clone());
        let mut rows: Vec<LocalRow> = Vec::new();
        let (mut level, mut slots) = (u32::MAX, 0);
        self.each_local_row(all.collect(), p, memo, threads, |s, row| {
            let x = &self.w.statements[s as usize];
            let slot = match x.layer {
                _ if x.deny => DENY,
                Layer::Identity => IDENTITY,
                Layer::Boundary => BOUNDARY,
                Layer::Session => SESSION,
                Layer::Org => {
                    if x.level != level {
                        level = x.level;
                        slots += 1;
                    }
                    ORG + slots - 1
                }
                _ => unreachable!(),
            };
            let l = Local { stmt: s, ae: self.statements[s as usize].ae, slot };
            if let LocalRow::Full = row {
                st.always.push(l);
            } else {
                st.locals.push(l);
                rows.push(row);
            }
        });
        st.org_slots = slots;
        st.org_dead = slots != n_org;
        self.resource_live(p, st, memo);
        self.classes(p, st, &rows);
        if planes {
            self.planes(st, threads);
        }
    }

    /// Calls `f` for each of the statements that is alive at some resource, in their order.
    fn each_local_row<'a>(&'a self, list: Vec<u32>, p: usize, memo: &mut Memo, threads: usize, mut f: impl FnMut(u32, LocalRow<'a>)) {
        let mut give = |s: u32, row: LocalRow<'a>| match row {
            LocalRow::Skip => {}
            row => f(s, row),
        };
        if threads <= 1 {
            list.into_iter().for_each(|s| give(s, self.local_row(s, p, memo)));
            return;
        }
        let done: Vec<Mutex<LocalRow>> = list.iter().map(|_| Mutex::new(LocalRow::Skip)).collect();
        let chunk = 16;
        on_threads(threads, list.len().div_ceil(chunk), |c| {
            let mut memo = self.memo();
            for i in c * chunk..list.len().min(c * chunk + chunk) {
                *done[i].lock().unwrap() = self.local_row(list[i], p, &mut memo);
            }
        });
        for (s, row) in list.into_iter().zip(done) {
            give(s, row.into_inner().unwrap());
        }
    }

    pub(super) fn resource_live(&self, p: usize, st: &mut State, memo: &mut Memo) {
        let pr = &self.w.principals[p];
        let account = self.w.accounts[pr.account as usize].id;
        st.ctrl_live.clear();
        for &s in &self.control {
            if self.held_alive(s, p, memo) {
                st.ctrl_live.push(s);
            }
        }
        let c = &mut st.cand;
        c.clear();
        c.extend(self.star.iter().map(|&s| (s, 3u8)));
        if !self.by_text.is_empty() {
            let mut add = |t: &str, g: u8| {
                if let Some(l) = self.by_text.get(t) {
                    c.extend(l.iter().map(|&s| (s, g)));
                }
            };
            add(pr.name, 3);
            if pr.arn != pr.name {
                add(pr.arn, 2);
            }
            add(account, 1);
            add(&format!("arn:{}:iam::{}:root", pr.partition, account), 1);
        }
        for &s in &self.not_principal {
            let e = self.w.statements[s as usize].principal.unwrap();
            if principal_holds(&e, pr, account).0 {
                c.push((s, 0));
            }
        }
        // By statement, the greatest grant first.
        c.sort_unstable_by(|x, y| x.0.cmp(&y.0).then(y.1.cmp(&x.1)));
        c.dedup_by_key(|x| x.0);
        st.res_live.clear();
        for &(s, g) in &st.cand {
            if self.held_alive(s, p, memo) {
                st.res_live.push((s, g));
            }
        }
    }

    /// Calls `f` for the living statements of a class that are not alive everywhere: action element, kind, grant.
    pub fn each_live(&self, st: &State, rc: usize, mut f: impl FnMut(u32, u32, u8)) {
        let mut give = |s: u32, g: u8| {
            let x = &self.statements[s as usize];
            f(x.ae, x.kind, g)
        };
        for (i, w) in st.xs[rc * st.xw..rc * st.xw + st.xw].iter().enumerate() {
            each_bit(*w, |b| give(st.locals[i * 64 + b].stmt, 0));
        }
        for &s in &st.ctrl_live[st.ctrl_at[rc].0 as usize..st.ctrl_at[rc].1 as usize] {
            give(s, 0)
        }
        for &(s, g) in &st.res_live[st.res_at[rc].0 as usize..st.res_at[rc].1 as usize] {
            give(s, g)
        }
    }

    pub fn each_always(&self, st: &State, mut f: impl FnMut(u32, u32)) {
        for l in &st.always {
            f(l.ae, self.statements[l.stmt as usize].kind)
        }
    }

    /// For each class of actions, the first class under which the same of p's living statements match.
    pub fn local_actions(&self, st: &State, first: &mut Vec<u32>) {
        first.clear();
        let own = st.always.iter().chain(&st.locals).map(|l| l.ae);
        let mut list: Vec<u32> = own.collect();
        list.extend(st.ctrl_live.iter().map(|&s| self.statements[s as usize].ae));
        list.extend(st.res_live.iter().map(|x| self.statements[x.0 as usize].ae));
        list.sort_unstable();
        list.dedup();
        let sw = words(list.len());
        let mut sig = vec![0u64; 64 * sw];
        let mut block = [0u64; 64];
        let mut ids: Map<Box<[u64]>, u32> = Map::default();
        for b in 0..words(self.nac) {
            for (s, part) in list.chunks(64).enumerate() {
                for (k, &ae) in part.iter().enumerate() {
                    block[k] = self.ae[ae as usize * self.acw + b];
                }
                block[part.len()..].fill(0);
                transpose64(&mut block);
                for k in 0..64 {
                    sig[k * sw + s] = block[k];
                }
            }
            for k in 0..64.min(self.nac - b * 64) {
                let key = &sig[k * sw..k * sw + sw];
                let ac = (b * 64 + k) as u32;
                first.push(match ids.get(key) {
                    Some(&x) => x,
                    None => {
                        ids.insert(key.into(), ac);
                        ac
                    }
                });
            }
        }
    }
}
