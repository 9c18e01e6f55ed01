//! Classes of actions that the same action elements match.
use super::shaped::Shaped;
use super::words_of;
use crate::arena::{leak, Arena};
use crate::bits::{each_bit, transpose64, words};
use crate::document::Statement;
use crate::hashing::Map;
use crate::threads::on_threads;
use std::sync::OnceLock;

/// The side of the actions.
pub(super) struct ActionSide {
    pub(super) of_stmt: Vec<u32>,
    pub(super) class_of: Vec<u32>,
    pub(super) nac: usize,
    pub(super) ae: Vec<u64>,
}

impl ActionSide {
    pub(super) fn new(statements: &[Statement], actions: &[&'static str], threads: usize) -> ActionSide {
        let mut ids: Map<&'static str, u32> = Map::default();
        let mut aes: Map<(bool, Vec<u32>), u32> = Map::default();
        let (mut folded, mut arena) = (String::new(), Arena::new());
        let mut of_stmt = Vec::with_capacity(statements.len());
        for s in statements {
            let mut acts = Vec::with_capacity(s.actions.len());
            for t in s.actions.iter() {
                folded.clear();
                folded.push_str(t);
                folded.make_ascii_lowercase();
                let id = match ids.get(folded.as_str()) {
                    Some(&id) => id,
                    None => {
                        let id = ids.len() as u32;
                        // SAFETY: the bytes of a text.
                        let t = unsafe { std::str::from_utf8_unchecked(arena.put(folded.as_bytes())) };
                        ids.insert(t, id);
                        id
                    }
                };
                acts.push(id);
            }
            acts.sort_unstable();
            acts.dedup();
            let n = aes.len() as u32;
            of_stmt.push(*aes.entry((s.not_action, acts)).or_insert(n));
        }
        let (class_of, nac, ae) = action_classes(actions, &aes, &ids, threads);
        std::mem::forget((ids, aes));
        ActionSide { of_stmt, class_of, nac, ae }
    }
}

/// Classes of actions that the same action elements match, and each element's bits over them.
fn action_classes(
    actions: &[&'static str],
    aes: &Map<(bool, Vec<u32>), u32>,
    patterns: &Map<&'static str, u32>,
    threads: usize,
) -> (Vec<u32>, usize, Vec<u64>) {
    let folded: Vec<&'static str> =
        actions.iter().map(|a| if a.bytes().any(|c| c.is_ascii_uppercase()) { leak(a.to_ascii_lowercase()) } else { a }).collect();
    let mut uniq = folded.clone();
    uniq.sort_unstable();
    uniq.dedup();
    let nae = aes.len();
    let (not, at, users) = users_of(aes, patterns.len());
    let pats: Vec<(Shaped, u32)> = patterns.iter().map(|(t, &i)| (Shaped::read(t), i)).collect();
    // Signatures of the actions, by blocks of them: those of a block, and the place of each action's.
    let sw = words(nae);
    let block = if uniq.len() > 1 << 12 { 1 << 12 } else { uniq.len().max(1) };
    let done: Vec<OnceLock<Signed>> = uniq.chunks(block).map(|_| OnceLock::new()).collect();
    on_threads(threads, done.len(), |i| {
        let part = &uniq[i * block..uniq.len().min(i * block + block)];
        let _ = done[i].set(signatures(part, &pats, &at, &users, &not, sw));
    });
    let (sigs, class_u) = classes_of(&done);
    // Classes are numbered by their first action.
    let mut renamed = vec![u32::MAX; sigs.len()];
    let mut order = Vec::new();
    let mut class_of = Vec::with_capacity(actions.len());
    let index: Map<&str, u32> = uniq.iter().enumerate().map(|(i, t)| (*t, i as u32)).collect();
    for t in &folded {
        let c = class_u[index[t] as usize] as usize;
        if renamed[c] == u32::MAX {
            renamed[c] = order.len() as u32;
            order.push(c);
        }
        class_of.push(renamed[c]);
    }
    let nac = order.len();
    let acw = words_of(nac);
    let mut ae = vec![0u64; nae * acw];
    for (i, &c) in order.iter().enumerate() {
        for (s, w) in sigs[c].iter().enumerate() {
            each_bit(*w, |b| {
                if s * 64 + b < nae {
                    ae[(s * 64 + b) * acw + i / 64] |= 1 << (i % 64)
                }
            });
        }
    }
    (class_of, nac, ae)
}

/// Which elements are those of `NotAction`, and for each pattern the elements that use it, one list behind the other.
fn users_of(aes: &Map<(bool, Vec<u32>), u32>, patterns: usize) -> (Vec<bool>, Vec<u32>, Vec<u32>) {
    let mut not = vec![false; aes.len()];
    let mut at = vec![0u32; patterns + 1];
    for (_, list) in aes.keys() {
        for &p in list {
            at[p as usize + 1] += 1;
        }
    }
    for i in 0..patterns {
        at[i + 1] += at[i];
    }
    let mut users = vec![0u32; at[patterns] as usize];
    let mut fill = at.clone();
    for ((n, list), &id) in aes {
        not[id as usize] = *n;
        for &p in list {
            users[fill[p as usize] as usize] = id;
            fill[p as usize] += 1;
        }
    }
    (not, at, users)
}

/// The different sets of elements that match the actions of a block, and which of them each action has.
type Signed = (Vec<Box<[u64]>>, Vec<u32>);

/// The different sets of all blocks, and which of them each action has.
fn classes_of(blocks: &[OnceLock<Signed>]) -> (Vec<&[u64]>, Vec<u32>) {
    let mut ids: Map<&[u64], u32> = Map::default();
    let (mut sigs, mut of_action) = (Vec::new(), Vec::new());
    for block in blocks {
        let (list, of) = block.get().expect("all blocks are done");
        let number = |k| {
            let n = sigs.len() as u32;
            let id = *ids.entry(k).or_insert(n);
            if id == n {
                sigs.push(k);
            }
            id
        };
        let map: Vec<u32> = list.iter().map(|k| &**k).map(number).collect();
        of_action.extend(of.iter().map(|&i| map[i as usize]));
    }
    (sigs, of_action)
}

/// Which elements match each action of a sorted block: the different sets, and each action's.
fn signatures(part: &[&str], pats: &[(Shaped, u32)], at: &[u32], users: &[u32], not: &[bool], sw: usize) -> Signed {
    let bw = words(part.len());
    let mut bits = vec![0u64; sw * 64 * bw];
    for (x, i) in pats {
        x.each_run(part, |lo, hi| {
            for &ae in &users[at[*i as usize] as usize..at[*i as usize + 1] as usize] {
                for j in lo..hi {
                    bits[ae as usize * bw + j / 64] |= 1 << (j % 64);
                }
            }
        });
    }
    for (ae, n) in not.iter().enumerate() {
        if *n {
            for w in &mut bits[ae * bw..ae * bw + bw] {
                *w = !*w;
            }
        }
    }
    let mut ids: Map<Box<[u64]>, u32> = Map::default();
    let (mut sigs, mut of) = (Vec::new(), Vec::with_capacity(part.len()));
    let mut sig = vec![0u64; 64 * sw];
    let mut block = [0u64; 64];
    for b in 0..bw {
        for s in 0..sw {
            for k in 0..64 {
                block[k] = bits[(s * 64 + k) * bw + b];
            }
            transpose64(&mut block);
            for k in 0..64 {
                sig[k * sw + s] = block[k];
            }
        }
        for k in 0..64.min(part.len() - b * 64) {
            let key = &sig[k * sw..k * sw + sw];
            of.push(match ids.get(key) {
                Some(&id) => id,
                None => {
                    let id = sigs.len() as u32;
                    ids.insert(key.into(), id);
                    sigs.push(key.into());
                    id
                }
            });
        }
    }
    (sigs, of)
}
