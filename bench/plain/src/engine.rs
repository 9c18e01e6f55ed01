//! The matrix engine. A statement's match is a product of four parts: its
//! action element (a bit set over classes of actions), its resource element
//! with the entries that look at the resource alone (a bit set over
//! resources), the entries that look at the requester alone (one bit), and a
//! rest that needs both. For one principal the resources fall into classes
//! under which the same statements are alive, and the decisions of all action
//! classes are found together, 64 to a word.
use self::actions::ActionSide;
use self::shaped::Shaped;
use self::sides::ResourceSide;
use crate::bits::words;
use crate::decide::Ground;
use crate::document::Statement;
use crate::entry::{Entry, Tests};
use crate::hashing::Map;
use crate::world::World;
use std::sync::OnceLock;

mod actions;
mod classes;
mod principal;
mod rows;
mod shaped;
mod sides;

pub use principal::{Memo, State};

pub struct Engine {
    pub w: World,
    pub class_of: Vec<u32>,
    pub nac: usize,
    pub acw: usize,
    pub ae: Vec<u64>,
    nr: usize,
    rw: usize,
    texts: Vec<&'static str>,
    text_at: Vec<u32>,
    text_r: Vec<u32>,
    resource_texts: Vec<ResourceText>,
    elements: Vec<Element>,
    entries: Vec<KnownEntry>,
    tables: Vec<(Vec<u32>, OnceLock<Classes>)>,
    combos: Vec<Combo>,
    spans: Vec<u32>,
    statements: Vec<Clauses>,
    /// Places with their effect, in place order, each by some statement that has it.
    pub kinds: Vec<u32>,
    control: Vec<u32>,
    star: Vec<u32>,
    not_principal: Vec<u32>,
    by_text: Map<&'static str, Vec<u32>>,
}

struct Clauses {
    ae: u32,
    kind: u32,
    elem: u32,
    combo: u32,
    /// Entries that need the principal, the resource, both.
    by_p: Span,
    by_r: Span,
    by_both: Span,
    dead: bool,
    moving: bool,
    /// The resource that it is attached to.
    r: u32,
}

type Span = (u32, u32);

struct Element {
    is: Is,
    /// Texts by what they need: nothing, the resource, the principal, both.
    still: Vec<u32>,
    by_r: Vec<u32>,
    by_p: Vec<u32>,
    by_both: Vec<u32>,
    row: OnceLock<Row>,
}

#[derive(Clone, Copy, PartialEq)]
enum Is {
    Absent,
    Any,
    None,
}

struct ResourceText {
    needs: u8,
    pat: Shaped,
}

struct KnownEntry {
    e: Entry,
    table: u32,
    row: OnceLock<Row>,
    resolved: OnceLock<Vec<Tests>>,
}

struct Combo {
    elem: u32,
    entries: Vec<u32>,
    row: OnceLock<Row>,
}

struct Classes {
    of: Vec<u32>,
    rep: Vec<u32>,
}

enum Row {
    Empty,
    Full,
    Bits(Box<[u64]>),
}

fn words_of(nac: usize) -> usize {
    match words(nac) {
        0 | 1 => 1,
        2 => 2,
        3 | 4 => 4,
        n => n.div_ceil(8) * 8,
    }
}

impl Engine {
    pub fn new(mut w: World, threads: usize) -> Engine {
        let statements = w.statements.clone();
        let actions = w.actions.clone();
        // The actions' side on a thread of its own, where the texts are many.
        let texts: usize = statements.iter().map(|s| s.actions.len()).sum();
        if threads > 1 && texts + actions.len() > 8192 {
            std::thread::scope(|scope| {
                let acts = scope.spawn(|| ActionSide::new(&statements, &actions, threads));
                let rest = ResourceSide::new(&statements, &mut w);
                Engine::join(w, acts.join().expect("no panic"), rest)
            })
        } else {
            let acts = ActionSide::new(&statements, &actions, threads);
            let rest = ResourceSide::new(&statements, &mut w);
            Engine::join(w, acts, rest)
        }
    }

    fn join(w: World, a: ActionSide, b: ResourceSide) -> Engine {
        let nr = w.resources.len();
        let mut clauses = b.statements;
        for (s, ae) in clauses.iter_mut().zip(a.of_stmt) {
            s.ae = ae;
        }
        let kind = |s: &Statement| (s.layer, s.level, s.policy, s.number, s.deny);
        let mut kinds: Vec<u32> = (0..clauses.len() as u32).collect();
        kinds.sort_by_key(|&i| kind(&w.statements[i as usize]));
        kinds.dedup_by_key(|i| kind(&w.statements[*i as usize]));
        for (s, x) in clauses.iter_mut().zip(&w.statements) {
            s.kind = kinds.binary_search_by_key(&kind(x), |&i| kind(&w.statements[i as usize])).expect("each kind is there") as u32;
        }
        let mut e = Engine {
            class_of: a.class_of,
            nac: a.nac,
            acw: words_of(a.nac),
            ae: a.ae,
            nr,
            rw: words(nr),
            texts: b.texts,
            text_at: b.text_at,
            text_r: b.text_r,
            resource_texts: b.resource_texts,
            elements: b.elements,
            entries: b.entries,
            tables: b.tables.into_iter().map(|k| (k, OnceLock::new())).collect(),
            combos: b.combos,
            spans: b.spans,
            statements: clauses,
            kinds,
            control: Vec::new(),
            star: Vec::new(),
            not_principal: Vec::new(),
            by_text: Map::default(),
            w,
        };
        e.attach();
        e
    }

    /// What the statements of resources come to at their own resource.
    fn attach(&mut self) {
        for r in 0..self.nr {
            let x = &self.w.resources[r];
            let off = self.w.accounts[x.account as usize].management;
            let (control, policy) = (x.control.clone(), x.policy.clone());
            if !off {
                for s in control {
                    if self.stands(s, r) {
                        self.control.push(s);
                    }
                }
            }
            for s in policy {
                if !self.stands(s, r) {
                    continue;
                }
                let e = self.w.statements[s as usize].principal.expect("resource statements have one");
                if e.not {
                    self.not_principal.push(s);
                } else if e.star || e.aws.iter().flat_map(|t| t.iter()).any(|t| t == "*") {
                    self.star.push(s);
                } else {
                    for t in e.aws.iter().flat_map(|t| t.iter()) {
                        let l = self.by_text.entry(t).or_default();
                        if l.last() != Some(&s) {
                            l.push(s);
                        }
                    }
                }
            }
        }
    }

    fn stands(&mut self, s: u32, r: usize) -> bool {
        self.statements[s as usize].r = r as u32;
        let x = &self.statements[s as usize];
        !x.dead
            && (x.moving || self.elem_at(x.elem, 0, r))
            && self.span(x.by_r).iter().all(|&e| self.entries[e as usize].e.at(&self.w, 0, r))
    }

    #[inline]
    fn span(&self, s: Span) -> &[u32] {
        &self.spans[s.0 as usize..s.1 as usize]
    }

    pub fn memo(&self) -> Memo {
        Memo { stamp: vec![0; self.entries.len()], val: vec![false; self.entries.len()] }
    }

    pub fn ground(&self, st: &State, rc: usize) -> Ground {
        Ground::of(&self.w, st.p, st.rep[rc] as usize)
    }
}
