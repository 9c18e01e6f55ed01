//! The decision on one request, by the letter of the logic.
use crate::document::{Layer, Principal, Resources, Statement, Texts};
use crate::draft::Draft;
use crate::entry::{value_texts, Entry};
use crate::json::Value;
use crate::pattern::Pattern;
use crate::world::{self, World};

#[derive(Clone, Copy, PartialEq, Eq, Debug)]
pub enum Decision {
    Implicit,
    Allowed,
    Explicit,
}

#[derive(Clone, Copy, PartialEq, Eq, PartialOrd, Ord, Debug)]
#[repr(u8)]
pub enum Grant {
    None,
    Account,
    Role,
    Direct,
}

/// What a verdict rests on beside the matched statements.
#[derive(Clone, Copy, PartialEq, Eq, Debug)]
pub struct Ground {
    pub org_levels: u32,
    pub control_levels: u32,
    pub boundary: bool,
    pub session: bool,
    pub same: bool,
    pub sealed: bool,
}

impl Ground {
    pub fn of(w: &World, p: usize, r: usize) -> Ground {
        let (pr, re) = (&w.principals[p], &w.resources[r]);
        let (pa, ra) = (&w.accounts[pr.account as usize], &w.accounts[re.account as usize]);
        Ground {
            org_levels: if pa.management { 0 } else { pa.org_levels },
            control_levels: if ra.management { 0 } else { re.control_levels },
            boundary: pr.has_boundary,
            session: pr.has_session,
            same: pr.account == re.account,
            sealed: re.sealed,
        }
    }
}

/// The statements that match one request, each with its grant, by the letter of the logic.
pub fn plain(w: &mut World, p: usize, a: usize, r: usize) -> Vec<(u32, Grant)> {
    let (pr, re) = (&w.principals[p], &w.resources[r]);
    let (pa, ra) = (&w.accounts[pr.account as usize], &w.accounts[re.account as usize]);
    let mut list: Vec<u32> = Vec::new();
    if !pa.management {
        list.extend(pa.org.clone());
    }
    if !ra.management {
        list.extend(re.control.clone());
    }
    for x in [&re.policy, &pr.identity, &pr.boundary, &pr.session] {
        list.extend(x.clone());
    }
    let mut out = Vec::new();
    for i in list {
        let s = w.statements[i as usize];
        if let Some(g) = statement_matches(w, &s, p, a, r) {
            out.push((i, g));
        }
    }
    out
}

/// Decision, deciding statements and lacks (as bits) of the matched statements, which stand in place order.
pub fn verdict(w: &World, g: &Ground, matched: &[(u32, Grant)]) -> (Decision, Vec<u32>, u8) {
    let st = |x: &(u32, Grant)| &w.statements[x.0 as usize];
    let denies: Vec<u32> = matched.iter().filter(|x| st(x).deny).map(|x| x.0).collect();
    if !denies.is_empty() {
        return (Decision::Explicit, denies, 0);
    }
    let has = |l: Layer| matched.iter().any(|x| st(x).layer == l);
    let full = |l: Layer, n: u32| {
        let mut seen = 0;
        let mut last = u32::MAX;
        for x in matched.iter().filter(|x| st(x).layer == l) {
            if st(x).level != last {
                last = st(x).level;
                seen += 1;
            }
        }
        seen == n
    };
    let (o, c) = (full(Layer::Org, g.org_levels), full(Layer::Control, g.control_levels));
    let i = has(Layer::Identity);
    let b = !g.boundary || has(Layer::Boundary);
    let s = !g.session || has(Layer::Session);
    let gr = matched.iter().filter(|x| st(x).layer == Layer::Resource).map(|x| x.1).max().unwrap_or(Grant::None);
    let none = gr == Grant::None;
    let ok = o
        && c
        && if g.same {
            gr == Grant::Direct || (gr == Grant::Role && b && s) || (i && b && s && (!g.sealed || !none))
        } else {
            i && b && s && !none
        };
    let allows = matched.iter().map(|x| x.0).collect();
    if ok {
        return (Decision::Allowed, allows, 0);
    }
    let lacks = [!o, !c, none && (!g.same || g.sealed), !i, !b, !s];
    let bits = lacks.iter().enumerate().fold(0, |x, (i, l)| x | (*l as u8) << i);
    (Decision::Implicit, allows, bits)
}

pub const LACKS: [&str; 6] = ["org", "control", "resource", "identity", "boundary", "session"];

/// `org/L/P/S` and its kin.
pub fn place_text(s: &Statement) -> String {
    match s.layer {
        Layer::Org => format!("org/{}/{}/{}", s.level, s.policy, s.number),
        Layer::Control => format!("control/{}/{}/{}", s.level, s.policy, s.number),
        Layer::Resource => format!("resource/0/{}", s.number),
        Layer::Identity => format!("identity/{}/{}", s.policy, s.number),
        Layer::Boundary => format!("boundary/0/{}", s.number),
        Layer::Session => format!("session/{}/{}", s.policy, s.number),
    }
}

fn statement_matches(w: &mut World, s: &Statement, p: usize, a: usize, r: usize) -> Option<Grant> {
    let mut grant = Grant::None;
    if let Some(e) = &s.principal {
        let pr = &w.principals[p];
        let (holds, g) = principal_holds(e, pr, w.accounts[pr.account as usize].id);
        if !holds {
            return None;
        }
        grant = g;
    }
    let action = w.actions[a].to_ascii_lowercase();
    let hit = s.actions.iter().any(|t| Pattern::wild(&t.to_ascii_lowercase()).matches(&action));
    if hit == s.not_action {
        return None;
    }
    let arn = w.resources[r].arn;
    let read = |t: &Texts, w: &mut World| -> Vec<Option<Pattern>> {
        t.iter()
            .map(|t| {
                let d = Draft::read(t, true, s.old, &mut w.keys);
                d.pattern(w, p, r)
            })
            .collect()
    };
    let fine = match &s.res {
        Resources::Absent => true,
        Resources::Is(t) => read(t, w).iter().flatten().any(|g| g.matches(arn)),
        Resources::Not(t) => read(t, w).iter().all(|g| g.as_ref().is_some_and(|g| !g.matches(arn))),
    };
    if !fine {
        return None;
    }
    for (name, v) in s.conditions {
        if let Value::Object(m) = v {
            for (key, v) in *m {
                let id = w.keys.id(key);
                let e = Entry::new(name, id, &value_texts(v), s.old, w);
                if !e.at(w, p, r) {
                    return None;
                }
            }
        }
    }
    Some(grant)
}

/// Whether the element holds, and its grant kind.
pub fn principal_holds(e: &Principal, p: &world::Principal, account: &str) -> (bool, Grant) {
    if !e.not {
        if e.star {
            return (true, Grant::Direct);
        }
        let g = e.aws.iter().flat_map(|t| t.iter()).map(|t| grant_of(t, p, account)).max().unwrap_or(Grant::None);
        return (g != Grant::None, g);
    }
    if e.star {
        return (false, Grant::None);
    }
    // Every name has to be named: the account, the user; or the account, the role, the session.
    let (mut a, mut role, mut name) = (false, p.name == p.arn, false);
    for t in e.aws.iter().flat_map(|t| t.iter()) {
        if t == "*" {
            return (false, Grant::None);
        }
        a |= t == account || root_of(t, p.partition, account);
        role |= t == p.arn;
        name |= t == p.name;
    }
    (!(a && role && name), Grant::None)
}

/// What one text under `AWS` grants to a requester.
fn grant_of(t: &str, p: &world::Principal, account: &str) -> Grant {
    if t == "*" || t == p.name {
        Grant::Direct
    } else if t == p.arn {
        Grant::Role
    } else if t == account || root_of(t, p.partition, account) {
        Grant::Account
    } else {
        Grant::None
    }
}

fn root_of(t: &str, partition: &str, account: &str) -> bool {
    (|| t.strip_prefix("arn:")?.strip_prefix(partition)?.strip_prefix(":iam::")?.strip_prefix(account))() == Some(":root")
}
