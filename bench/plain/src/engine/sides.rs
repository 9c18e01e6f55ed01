//! What statements ask of resources and contexts, each equal thing once.
use super::shaped::Shaped;
use super::{Clauses, Combo, Element, Is, KnownEntry, ResourceText};
use crate::document::{Layer, Resources, Statement};
use crate::draft::{Draft, NEED_P, NEED_R};
use crate::entry::{value_texts, Entry};
use crate::grammar::{opens, Base};
use crate::hashing::Map;
use crate::json::Value;
use crate::world::World;
use std::collections::hash_map::Entry as Slot;
use std::sync::OnceLock;

/// The side of the resources and the conditions.
pub(super) struct ResourceSide {
    pub(super) statements: Vec<Clauses>,
    pub(super) texts: Vec<&'static str>,
    pub(super) text_at: Vec<u32>,
    pub(super) text_r: Vec<u32>,
    pub(super) resource_texts: Vec<ResourceText>,
    pub(super) elements: Vec<Element>,
    pub(super) entries: Vec<KnownEntry>,
    pub(super) tables: Vec<Vec<u32>>,
    pub(super) combos: Vec<Combo>,
    pub(super) spans: Vec<u32>,
}

impl ResourceSide {
    pub(super) fn new(statements: &[Statement], w: &mut World) -> ResourceSide {
        let mut b = Sharing::default();
        let clauses = statements.iter().map(|s| b.clauses(s, w)).collect();
        let (texts, text_at, text_r) = sorted_texts(w);
        // Many small pieces that nobody needs any more, and the process is short.
        std::mem::forget((b.resource_text_ids, b.element_ids, b.entry_ids, b.combo_ids));
        ResourceSide {
            statements: clauses,
            texts,
            text_at,
            text_r,
            resource_texts: b.resource_texts,
            elements: b.elements,
            entries: b.entries,
            tables: b.tables,
            combos: b.combos,
            spans: b.spans,
        }
    }
}

/// The different texts of the resources in their order, where the resources of each begin, and these.
fn sorted_texts(w: &World) -> (Vec<&'static str>, Vec<u32>, Vec<u32>) {
    let mut order: Vec<u32> = (0..w.resources.len() as u32).collect();
    order.sort_by_key(|&r| w.resources[r as usize].arn);
    let (mut texts, mut text_at) = (Vec::new(), Vec::new());
    for (i, &r) in order.iter().enumerate() {
        let t = w.resources[r as usize].arn;
        if texts.last() != Some(&t) {
            texts.push(t);
            text_at.push(i as u32);
        }
    }
    text_at.push(order.len() as u32);
    (texts, text_at, order)
}

#[derive(Default)]
pub(super) struct Sharing {
    pub(super) resource_text_ids: Map<(&'static str, bool), u32>,
    pub(super) resource_texts: Vec<ResourceText>,
    pub(super) element_ids: Map<(u8, Vec<u32>), u32>,
    pub(super) elements: Vec<Element>,
    pub(super) entry_ids: Map<(&'static str, u32, bool, Vec<&'static str>), u32>,
    pub(super) entries: Vec<KnownEntry>,
    pub(super) table_ids: Map<Vec<u32>, u32>,
    pub(super) tables: Vec<Vec<u32>>,
    pub(super) combo_ids: Map<(u32, Vec<u32>), u32>,
    pub(super) combos: Vec<Combo>,
    pub(super) spans: Vec<u32>,
}

impl Sharing {
    /// What a statement asks of resources and contexts.
    fn clauses(&mut self, s: &Statement, w: &mut World) -> Clauses {
        let elem = self.elem(&s.res, s.old, w);
        let (lists, dead) = self.entries_of(s, w);
        let held = matches!(s.layer, Layer::Resource | Layer::Control);
        let combo = if held { u32::MAX } else { self.combo(elem, &lists[NEED_R as usize]) };
        let mut span = |l: &[u32]| {
            let a = self.spans.len() as u32;
            self.spans.extend_from_slice(l);
            (a, self.spans.len() as u32)
        };
        let e = &self.elements[elem as usize];
        Clauses {
            ae: 0,
            kind: 0,
            elem,
            combo,
            by_p: span(&lists[NEED_P as usize]),
            by_r: span(&lists[NEED_R as usize]),
            by_both: span(&lists[3]),
            dead,
            moving: !e.by_p.is_empty() || !e.by_both.is_empty(),
            r: u32::MAX,
        }
    }

    /// The entries of a statement by what they look at, and whether one that looks at neither side fails.
    fn entries_of(&mut self, s: &Statement, w: &mut World) -> ([Vec<u32>; 4], bool) {
        let mut lists: [Vec<u32>; 4] = Default::default();
        let mut dead = false;
        for (name, v) in s.conditions {
            let Value::Object(m) = v else { continue };
            for (key, v) in *m {
                let id = self.entry(name, key, v, s.old, w);
                let needs = self.entries[id as usize].e.needs;
                if needs == 0 {
                    dead |= !self.entries[id as usize].e.at(w, 0, 0);
                } else {
                    lists[needs as usize].push(id);
                }
            }
        }
        for l in &mut lists {
            l.sort_unstable();
            l.dedup();
        }
        (lists, dead)
    }

    pub(super) fn elem(&mut self, res: &Resources, old: bool, w: &mut World) -> u32 {
        let (is, kind, texts) = match res {
            Resources::Absent => (Is::Absent, 0, None),
            Resources::Is(t) => (Is::Any, 1, Some(t)),
            Resources::Not(t) => (Is::None, 2, Some(t)),
        };
        let mut ids = Vec::new();
        for t in texts.iter().flat_map(|t| t.iter()) {
            let plain = old && opens(t).is_some();
            let n = self.resource_texts.len() as u32;
            let id = *self.resource_text_ids.entry((t, plain)).or_insert(n);
            if id == n {
                let (needs, pat) = if old || opens(t).is_none() {
                    (0, Shaped::read(t))
                } else {
                    let d = Draft::read(t, true, false, &mut w.keys);
                    match d.needs(&w.keys) {
                        0 => (0, d.pattern(w, 0, 0).map_or(Shaped::Lost, |g| Shaped::Mixed(Box::new(g)))),
                        n => (n, Shaped::Moving(Box::new(d))),
                    }
                };
                self.resource_texts.push(ResourceText { needs, pat });
            }
            ids.push(id);
        }
        ids.sort_unstable();
        ids.dedup();
        let n = self.elements.len() as u32;
        match self.element_ids.entry((kind, ids)) {
            Slot::Occupied(o) => *o.get(),
            Slot::Vacant(v) => {
                let pick = |k: u8| v.key().1.iter().copied().filter(|&i| self.resource_texts[i as usize].needs == k).collect();
                self.elements.push(Element {
                    is,
                    still: pick(0),
                    by_r: pick(NEED_R),
                    by_p: pick(NEED_P),
                    by_both: pick(3),
                    row: OnceLock::new(),
                });
                v.insert(n);
                n
            }
        }
    }

    pub(super) fn entry(&mut self, name: &'static str, key: &'static str, v: &Value, old: bool, w: &mut World) -> u32 {
        let key = w.keys.id(key);
        let mut texts = value_texts(v);
        texts.sort_unstable();
        texts.dedup();
        let n = self.entries.len() as u32;
        match self.entry_ids.entry((name, key, old, texts)) {
            Slot::Occupied(o) => *o.get(),
            Slot::Vacant(s) => {
                let e = Entry::new(name, key, &s.key().3, old, w);
                debug_assert!(e.moving_is_text());
                let m = self.tables.len() as u32;
                let mut table = u32::MAX;
                if e.needs & NEED_R != 0 {
                    table = *self.table_ids.entry(e.rkeys.clone()).or_insert(m);
                    if table == m {
                        self.tables.push(e.rkeys.clone());
                    }
                }
                self.entries.push(KnownEntry { e, table, row: OnceLock::new(), resolved: OnceLock::new() });
                s.insert(n);
                n
            }
        }
    }

    pub(super) fn combo(&mut self, elem: u32, entries: &[u32]) -> u32 {
        let n = self.combos.len() as u32;
        let id = *self.combo_ids.entry((elem, entries.to_vec())).or_insert(n);
        if id == n {
            self.combos.push(Combo { elem, entries: entries.to_vec(), row: OnceLock::new() });
        }
        id
    }
}

impl Entry {
    pub(super) fn moving_is_text(&self) -> bool {
        self.var_needs == 0 || matches!(self.op.base, Base::Str { .. } | Base::Arn { .. })
    }
}
