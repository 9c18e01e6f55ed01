//! Sets of matched statements, each kept once, with the text that stands for it behind a row.
use super::texts::{Shared, PAD};
use super::{Form, WORDS};
use crate::bits::each_bit;
use crate::decide::{verdict, Grant, Ground, LACKS};
use crate::engine::State;

pub(super) const NONE: u32 = u32::MAX;

/// Sets of matched statements, each kept once, with their rendered tails. A set
/// is a list of labels on top of another set; at the bottom stands a ground.
pub(super) struct Sets {
    pub(super) words: Vec<u32>,
    /// Start and length of the list, whose first word is the set below or `NONE`.
    pub(super) at: Vec<(u32, u32)>,
    /// Start, length, length of the first part.
    pub(super) tail: Vec<(u32, u32, u32)>,
    pub(super) text: Vec<u8>,
    pub(super) max: usize,
    pub(super) roots: Vec<(Ground, u32)>,
    pub(super) tab: Vec<(u32, u32)>,
}

impl Sets {
    pub(super) fn new() -> Sets {
        Sets { words: vec![], at: vec![], tail: vec![], text: vec![0; PAD], max: 0, roots: vec![], tab: vec![(0, NONE); 1 << 10] }
    }

    pub(super) fn large(&self, by: usize) -> bool {
        self.at.len() > 1 << by || self.text.len() > 256 << by || self.words.len() > 32 << by
    }

    pub(super) fn root(&mut self, g: Ground) -> u32 {
        if let Some(x) = self.roots.iter().find(|x| x.0 == g) {
            return x.1;
        }
        let n = self.roots.len() as u32;
        let id = self.set(NONE, &[n]);
        self.roots.push((g, id));
        id
    }

    /// The number of the set of these labels on top of `below`.
    #[inline]
    pub(super) fn set(&mut self, below: u32, labels: &[u32]) -> u32 {
        if labels.is_empty() {
            return below;
        }
        let mut h = (below as u64 ^ 0x5bd1_e995).wrapping_mul(0x9E37_79B9_7F4A_7C15);
        for &l in labels {
            h = (h.rotate_left(23) ^ l as u64).wrapping_mul(0x9E37_79B9_7F4A_7C15);
        }
        let h = (h ^ (h >> 32)).wrapping_mul(0xD6E8_FEB8_6659_FD93) >> 32;
        let cap = self.tab.len();
        let mut i = h as usize & (cap - 1);
        loop {
            let (k, id) = self.tab[i];
            if id == NONE {
                break;
            }
            if k == h as u32 {
                let (a, n) = self.at[id as usize];
                let list = &self.words[a as usize..(a + n) as usize];
                if list[0] == below && list[1..] == *labels {
                    return id;
                }
            }
            i = (i + 1) & (cap - 1);
        }
        let id = self.at.len() as u32;
        self.at.push((self.words.len() as u32, labels.len() as u32 + 1));
        self.words.push(below);
        self.words.extend_from_slice(labels);
        self.tail.push((NONE, 0, 0));
        self.tab[i] = (h as u32, id);
        if self.at.len() * 2 > cap {
            let old = std::mem::replace(&mut self.tab, vec![(0, NONE); cap * 4]);
            for x in old.into_iter().filter(|x| x.1 != NONE) {
                let mut i = x.0 as usize & (cap * 4 - 1);
                while self.tab[i].1 != NONE {
                    i = (i + 1) & (cap * 4 - 1);
                }
                self.tab[i] = x;
            }
        }
        id
    }

    /// Renders the tail of a set.
    #[cold]
    pub(super) fn render(&mut self, id: u32, sh: &Shared) {
        // Labels stand for kinds, whose order is place order.
        let mut labels: Vec<u32> = Vec::new();
        let mut n = id;
        let ground = loop {
            let (a, len) = self.at[n as usize];
            let list = &self.words[a as usize..(a + len) as usize];
            if list[0] == NONE {
                break self.roots[list[1] as usize].0;
            }
            labels.extend_from_slice(&list[1..]);
            n = list[0];
        };
        labels.sort_unstable();
        let grants = [Grant::None, Grant::Account, Grant::Role, Grant::Direct];
        let matched: Vec<(u32, Grant)> = labels.iter().map(|l| (sh.e.kinds[(l >> 2) as usize], grants[(l & 3) as usize])).collect();
        let (d, list, lacks) = verdict(&sh.e.w, &ground, &matched);
        let t = &mut self.text;
        t.truncate(t.len() - PAD);
        let start = t.len();
        let word = WORDS[d as usize].as_bytes();
        let (sep, quote): (&[u8], &[u8]) = if sh.form == Form::Json { (b",", b"\"") } else { (b" ", b"") };
        fn join<'x>(t: &mut Vec<u8>, it: impl Iterator<Item = &'x str>, sep: &[u8], quote: &[u8]) {
            for (i, x) in it.enumerate() {
                if i > 0 {
                    t.extend_from_slice(sep);
                }
                t.extend_from_slice(quote);
                t.extend_from_slice(x.as_bytes());
                t.extend_from_slice(quote);
            }
        }
        let places = list.iter().map(|s| sh.places[*s as usize].as_str());
        let lacks = (0..6).filter(|i| lacks >> i & 1 == 1).map(|i| LACKS[i]);
        let mid;
        if sh.form == Form::Json {
            t.extend_from_slice(b",\"decision\":\"");
            t.extend_from_slice(word);
            t.extend_from_slice(b"\",\"lacks\":[");
            join(t, lacks, sep, quote);
            t.extend_from_slice(b"],\"principal\":\"");
            mid = t.len();
            join(t, places, sep, quote);
            t.extend_from_slice(b"]}");
        } else {
            t.extend_from_slice(word);
            t.push(b',');
            join(t, places, sep, quote);
            t.push(b',');
            join(t, lacks, sep, quote);
            t.push(b'\n');
            mid = t.len();
        }
        let len = t.len() - start;
        self.max = self.max.max(len);
        self.tail[id as usize] = (start as u32, len as u32, (mid - start) as u32);
        t.resize(t.len() + PAD, 0);
    }
}

/// The tails of one principal's rows, one row for each class of actions that is local to it.
pub(super) struct Table {
    pub(super) sets: Sets,
    pub(super) p: usize,
    pub(super) first: Vec<u32>,
    pub(super) slot_of: Vec<u32>,
    pub(super) slots: usize,
    pub(super) ids: Vec<u32>,
    pub(super) jmap: Vec<u32>,
    pub(super) all: bool,
    pub(super) lists: Vec<u32>,
    pub(super) lens: Vec<u32>,
}

impl Table {
    pub(super) fn new() -> Table {
        Table {
            sets: Sets::new(),
            p: usize::MAX,
            first: vec![],
            slot_of: vec![],
            slots: 0,
            ids: vec![],
            jmap: vec![],
            all: false,
            lists: vec![],
            lens: vec![],
        }
    }

    pub(super) fn begin(&mut self, sh: &Shared, st: &State) {
        if self.sets.large(17) {
            self.sets = Sets::new();
        }
        if self.p != st.p {
            sh.e.local_actions(st, &mut self.first);
        }
        self.p = st.p;
        self.slot_of.clear();
        self.slot_of.resize(sh.e.nac, NONE);
        self.jmap.resize(sh.e.acw * 64, 0);
        self.slots = 0;
        self.all = false;
    }

    /// Makes the rows of these actions where they are not there yet.
    pub(super) fn fill(&mut self, sh: &Shared, st: &State, a0: usize, a1: usize) {
        let (e, nrc) = (sh.e, st.nrc());
        if self.p != st.p || self.slots * nrc > 1 << 22 || self.sets.large(18) {
            self.begin(sh, st);
        }
        if self.all {
            return;
        }
        let mut fresh: Vec<u32> = Vec::new();
        for a in a0..=a1 {
            let ac = self.first[e.class_of[a] as usize];
            if self.slot_of[ac as usize] == NONE {
                self.slot_of[ac as usize] = 0;
                fresh.push(ac);
            }
        }
        self.all = a0 == 0 && a1 + 1 == sh.na;
        fresh.sort_unstable();
        // The room for the lists of matched statements is bounded.
        let cap = st.most_live().max(1);
        for part in fresh.chunks((1 << 20) / cap + 1) {
            self.fill_part(sh, st, part, cap);
        }
    }

    pub(super) fn fill_part(&mut self, sh: &Shared, st: &State, fresh: &[u32], cap: usize) {
        let (e, nrc, base, n) = (sh.e, st.nrc(), self.slots, fresh.len());
        let mut need: Vec<(usize, u64)> = Vec::new();
        for (j, &ac) in fresh.iter().enumerate() {
            self.slot_of[ac as usize] = (base + j) as u32;
            self.jmap[ac as usize] = j as u32;
            let w = ac as usize / 64;
            if need.last().is_none_or(|x| x.0 != w) {
                need.push((w, 0));
            }
            need.last_mut().unwrap().1 |= 1 << (ac % 64);
        }
        self.slots += n;
        if self.ids.len() < self.slots * nrc {
            self.ids.resize(self.slots * nrc, 0);
        }
        if self.lists.len() < n * cap {
            self.lists.resize(n * cap, 0);
        }
        self.lens.clear();
        self.lens.resize(n, 0);
        let (sets, jmap, lists, lens, ids) = (&mut self.sets, &self.jmap, &mut self.lists, &mut self.lens, &mut self.ids);
        let step = |lists: &mut [u32], lens: &mut [u32], ae: u32, label: u32| {
            for &(w, mask) in &need {
                each_bit(e.ae[ae as usize * e.acw + w] & mask, |b| {
                    let j = jmap[w * 64 + b] as usize;
                    lists[j * cap + lens[j] as usize] = label;
                    lens[j] += 1;
                });
            }
        };
        let mut starts: Vec<(u32, Vec<u32>)> = Vec::new();
        for rc in 0..nrc {
            let root = sets.root(e.ground(st, rc));
            let i = match starts.iter().position(|x| x.0 == root) {
                Some(i) => i,
                None => {
                    e.each_always(st, |ae, k| step(lists, lens, ae, k << 2));
                    let below = (0..n).map(|j| sets.set(root, &lists[j * cap..][..lens[j] as usize])).collect();
                    lens.fill(0);
                    starts.push((root, below));
                    starts.len() - 1
                }
            };
            e.each_live(st, rc, |ae, k, g| step(lists, lens, ae, k << 2 | g as u32));
            let below = &starts[i].1;
            for j in 0..n {
                let id = sets.set(below[j], &lists[j * cap..][..lens[j] as usize]);
                lens[j] = 0;
                if sets.tail[id as usize].0 == NONE {
                    sets.render(id, sh);
                }
                ids[(base + j) * nrc + rc] = id;
            }
        }
    }

    /// How many rows there can be.
    pub(super) fn rows(&self) -> usize {
        self.first.iter().enumerate().filter(|(i, &x)| *i == x as usize).count()
    }

    pub(super) fn row(&self, ac: usize, nrc: usize) -> &[u32] {
        &self.ids[self.slot_of[self.first[ac] as usize] as usize * nrc..][..nrc]
    }
}
