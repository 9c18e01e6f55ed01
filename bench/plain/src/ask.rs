//! Requests of a file, one a line, each decided alone.
use crate::decide;
use crate::json::{self, scalar_text, Member, Value};
use crate::keys::{Part, DERIVED};
use crate::reading::{context_shape, object, MAX_BYTES};
use crate::report::{self, Form};
use crate::world::World;
use std::collections::{HashMap, HashSet};

const MAX_REQUESTS: usize = 16_777_216;

const MAX_KEYS: usize = 67_108_864;

struct Request {
    p: usize,
    a: usize,
    r: usize,
    own: Part,
}

/// The places of a text, and whether there are several.
type Places = HashMap<&'static str, (usize, bool)>;

struct Names {
    principals: Places,
    actions: Places,
    folded: HashMap<String, usize>,
    resources: Places,
}

fn places(texts: impl Iterator<Item = &'static str>) -> Places {
    let mut out = Places::new();
    for (i, t) in texts.enumerate() {
        out.entry(t).and_modify(|x| x.1 = true).or_insert((i, false));
    }
    out
}

impl Names {
    fn of(w: &World) -> Names {
        let mut folded = HashMap::new();
        for (i, t) in w.actions.iter().enumerate() {
            folded.entry(t.to_ascii_lowercase()).or_insert(i);
        }
        Names {
            principals: places(w.principals.iter().map(|p| p.name)),
            actions: places(w.actions.iter().copied()),
            folded,
            resources: places(w.resources.iter().map(|r| r.arn)),
        }
    }

    fn action(&self, text: &str) -> Option<usize> {
        let exact = self.actions.get(text).map(|x| x.0);
        exact.or_else(|| self.folded.get(&text.to_ascii_lowercase()).copied())
    }
}

fn only(places: &Places, text: &str, none: &'static str, several: &'static str) -> Result<usize, String> {
    match places.get(text) {
        None => Err(none.into()),
        Some((_, true)) => Err(several.into()),
        Some((i, false)) => Ok(*i),
    }
}

/// What a line says: texts of principal, action and resource, and keys.
fn said(line: &'static [u8]) -> Result<([&'static str; 3], &'static [Member]), String> {
    if line.len() > MAX_BYTES {
        return Err("2 BadShape".into());
    }
    let value: &'static Value = Box::leak(Box::new(json::parse(line).ok_or("1 NotJson")?));
    shape(value).ok_or_else(|| "2 BadShape".into())
}

fn shape(value: &'static Value) -> Option<([&'static str; 3], &'static [Member])> {
    let members = object(value)?;
    let get = |name: &str| members.iter().find(|m| m.0 == name).map(|m| &m.1);
    let known = |name: &str| matches!(name, "principal" | "action" | "resource" | "context");
    let texts = [get("principal")?.text()?, get("action")?.text()?, get("resource")?.text()?];
    let keys = context_shape(get("context"))?;
    members.iter().all(|m| known(m.0)).then_some((texts, keys))
}

/// The keys of a request, which no other part of its context may have.
fn own_part(w: &mut World, members: &'static [Member], p: usize, r: usize) -> Result<Part, String> {
    let (mut twice, mut derived) = (false, false);
    let mut out = Part::new();
    for (key, value) in members {
        let id = w.keys.id(key);
        let gives = |part: &Part| part.iter().any(|x| x.0 == id);
        twice |= gives(&out) || gives(&w.world_part) || gives(&w.principal_parts[p]) || gives(&w.resource_parts[r]);
        derived |= (id as usize) < DERIVED.len();
        let texts: Vec<&'static str> = match value {
            Value::List(l) => l.iter().map(scalar_text).collect(),
            one => vec![scalar_text(one)],
        };
        out.push((id, Vec::leak(texts)));
    }
    match (twice, derived) {
        (true, _) => Err("8 Context: 1 KeyTwice".into()),
        (_, true) => Err("8 Context: 2 DerivedKeyGiven".into()),
        _ => Ok(out),
    }
}

/// How large the keys of a request are, with their values.
fn size(members: &[Member], own: &Part) -> usize {
    let text = |t: &str| 64 + t.len();
    let keys: usize = members.iter().map(|m| text(m.0)).sum();
    keys + own.iter().flat_map(|x| x.1.iter()).map(|t| text(t)).sum::<usize>()
}

fn requests(w: &mut World, bytes: &'static [u8]) -> Result<Vec<Request>, String> {
    let names = Names::of(w);
    let (mut out, mut room, mut given) = (Vec::new(), MAX_KEYS, HashSet::new());
    for line in bytes.split_inclusive(|&c| c == b'\n') {
        let line = line.strip_suffix(b"\n").unwrap_or(line);
        let fault = |why: String| format!("10 Request: line {}: {why}", out.len());
        if out.len() == MAX_REQUESTS {
            return Err(fault("9 TooMany".into()));
        }
        let ([principal, action, resource], keys) = said(line).map_err(fault)?;
        let p = only(&names.principals, principal, "3 NoPrincipal", "4 SeveralPrincipals").map_err(fault)?;
        let a = names.action(action).ok_or("5 NoAction".to_string()).map_err(fault)?;
        let r = only(&names.resources, resource, "6 NoResource", "7 SeveralResources").map_err(fault)?;
        let own = own_part(w, keys, p, r).map_err(fault)?;
        if given.insert(own.clone()) {
            room = room.checked_sub(size(keys, &own)).ok_or("10 ContextsTooLarge".to_string()).map_err(fault)?;
        }
        out.push(Request { p, a, r, own });
    }
    Ok(out)
}

/// The report of the requests of these lines, or the rest of a fault's line.
pub fn report(w: &mut World, lines: Vec<u8>, form: Form, lawful: impl Fn(u64) -> Result<(), String>) -> Result<(Vec<u8>, bool), String> {
    let requests = requests(w, Vec::leak(lines))?;
    lawful(requests.len() as u64)?;
    let mut out = report::opening(form).as_bytes().to_vec();
    for (n, it) in requests.iter().enumerate() {
        w.own = it.own.clone();
        let ground = decide::Ground::of(w, it.p, it.r);
        let matched = decide::plain(w, it.p, it.a, it.r);
        let v = decide::verdict(w, &ground, &matched);
        out.extend(report::row(w, form, n as u64, [it.p, it.a, it.r], &v));
    }
    out.extend_from_slice(report::closing(form).as_bytes());
    Ok((out, !requests.is_empty()))
}

/// The bytes of a file.
pub fn bytes_of(path: &str) -> Result<Vec<u8>, String> {
    std::fs::read(path).map_err(|e| {
        let reason = e.to_string();
        format!("1 Read: {path}: {}", reason.split(" (os error").next().unwrap_or(""))
    })
}
