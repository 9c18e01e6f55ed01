//! The reading of a world, or its first fault.
use crate::arena::{leak, Arena};
use crate::document::{self as policy, Kind, Layer, Place, Statement, FAULTS};
use crate::hashing::Map;
use crate::json::{self, Member, Value};
use crate::keys::*;
use crate::values::stamp;
use crate::world::{Account, Principal, Resource, World};
use std::ops::Range;

pub const MAX_BYTES: usize = 8_388_608;

pub const MAX_CELLS: u128 = 16_777_216;

pub const MAX_STATEMENTS: usize = 4096;

/// The world, or the rest of its fault line after `fault 2 World: `.
pub fn read(bytes: &'static [u8]) -> Result<World, String> {
    if bytes.len() > MAX_BYTES {
        return Err("9 TooLarge".into());
    }
    let root = json::parse(bytes).ok_or("1 NotJson")?;
    let root: &'static Value = Box::leak(Box::new(root));
    from_value(root)
}

/// What a document of the right shape says: the world, as far as its texts give it, and what is still to be read.
struct Shape {
    moment: u64,
    ids: Map<&'static str, u32>,
    accounts: Vec<Account>,
    orgs: Vec<&'static [Value]>,
    principals: Vec<RawPrincipal>,
    actions: Vec<&'static str>,
    resources: Vec<Resource>,
    raw_resources: Vec<RawResource>,
    context: &'static [Member],
}

/// The steps of a reading, in the order of the faults that they name.
fn from_value(root: &'static Value) -> Result<World, String> {
    let mut it = shape_of(root)?;
    let mut principals = requesters(&it.principals)?;
    names(&it)?;
    homes(&it.ids, &mut principals, &mut it.resources)?;
    let contexts = contexts(&it)?;
    let statements = policies(&mut it, &mut principals)?;
    let Shape { moment, accounts, actions, resources, .. } = it;
    let cells = principals.len() as u128 * actions.len() as u128 * resources.len() as u128;
    if cells > MAX_CELLS || statements.len() > MAX_STATEMENTS {
        return Err("9 TooLarge".into());
    }
    let now = [leak(stamp(moment)), leak(moment.to_string())];
    let (keys, world_part, principal_parts, resource_parts) = contexts;
    Ok(World { now, accounts, principals, actions, resources, statements, keys, world_part, principal_parts, resource_parts, own: Part::new() })
}

fn bad(path: impl std::fmt::Display) -> String {
    format!("2 BadShape at {path}")
}

fn shape_of(root: &'static Value) -> Result<Shape, String> {
    let mut w = Members { m: object(root).ok_or_else(|| bad("."))?, known: 0 };
    let moment = match w.get("moment") {
        Some(&Value::Unsigned(n)) if n <= 253_402_300_799 => n,
        _ => return Err(bad("moment")),
    };
    let (mut ids, mut accounts, mut orgs) = (Map::default(), Vec::new(), Vec::new());
    for (i, v) in w.list("accounts")?.iter().enumerate() {
        let (account, org) = account_of(v, i, &mut ids)?;
        accounts.push(account);
        orgs.push(org);
    }
    let principals = w.list("principals")?.iter().enumerate().map(|(i, v)| principal_shape(v, i)).collect::<Result<_, _>>()?;
    let mut actions = Vec::new();
    for (i, v) in w.list("actions")?.iter().enumerate() {
        actions.push(v.text().ok_or_else(|| bad(format!("actions/{i}")))?);
    }
    let both = w.list("resources")?.iter().enumerate().map(|(i, v)| resource_shape(v, i)).collect::<Result<Vec<_>, _>>()?;
    let (resources, raw_resources) = both.into_iter().unzip();
    let context = context_shape(w.get("context")).ok_or_else(|| bad("context"))?;
    if w.rest() {
        return Err(bad("."));
    }
    Ok(Shape { moment, ids, accounts, orgs, principals, actions, resources, raw_resources, context })
}

/// An account and its levels of policies.
fn account_of(v: &'static Value, i: usize, ids: &mut Map<&'static str, u32>) -> Result<(Account, &'static [Value]), String> {
    let path = |m: &str| bad(format!("accounts/{i}{m}"));
    let mut a = Members { m: object(v).ok_or_else(|| path(""))?, known: 0 };
    let id = a.get("id").and_then(|v| v.text()).filter(|t| digits12(t)).ok_or_else(|| path("/id"))?;
    if ids.insert(id, i as u32).is_some() {
        return Err(path("/id"));
    }
    let management = truth(a.get("management")).ok_or_else(|| path("/management"))?;
    let org = levels(a.get("org"), || format!("accounts/{i}/org")).map_err(bad)?;
    if a.rest() {
        return Err(path(""));
    }
    Ok((Account { id, management, org_levels: org.len() as u32, org: 0..0 }, org))
}

fn principal_shape(v: &'static Value, i: usize) -> Result<RawPrincipal, String> {
    let path = |m: &str| bad(format!("principals/{i}{m}"));
    let mut a = Members { m: object(v).ok_or_else(|| path(""))?, known: 0 };
    let (arn, session) = match (a.get("user"), a.get("role")) {
        (Some(u), None) => (u.text().ok_or_else(|| path("/user"))?, None),
        (None, Some(r)) => {
            let r = r.text().ok_or_else(|| path("/role"))?;
            let s = a.get("session").and_then(|v| v.text()).ok_or_else(|| path("/session"))?;
            (r, Some(s))
        }
        _ => return Err(path("")),
    };
    let identity = match a.get("identity") {
        None => &[][..],
        Some(v) => list(v).ok_or_else(|| path("/identity"))?,
    };
    let boundary = a.get("boundary");
    let mut session_policies = &[][..];
    if session.is_some() {
        if let Some(v) = a.get("sessionPolicies") {
            session_policies = list(v).ok_or_else(|| path("/sessionPolicies"))?;
        }
    }
    let context = context_shape(a.get("context")).ok_or_else(|| path("/context"))?;
    if a.rest() {
        return Err(path(""));
    }
    Ok(RawPrincipal { arn, session, identity, boundary, session_policies, context })
}

fn resource_shape(v: &'static Value, i: usize) -> Result<(Resource, RawResource), String> {
    let path = |m: &str| bad(format!("resources/{i}{m}"));
    let mut a = Members { m: object(v).ok_or_else(|| path(""))?, known: 0 };
    let arn = a.get("arn").and_then(|v| v.text()).ok_or_else(|| path("/arn"))?;
    let account = a.get("account").and_then(|v| v.text()).ok_or_else(|| path("/account"))?;
    let policy = a.get("policy");
    let sealed = truth(a.get("sealed")).ok_or_else(|| path("/sealed"))?;
    let context = context_shape(a.get("context")).ok_or_else(|| path("/context"))?;
    let control = levels(a.get("control"), || format!("resources/{i}/control")).map_err(bad)?;
    if a.rest() {
        return Err(path(""));
    }
    let control_levels = control.len() as u32;
    let resource = Resource { arn, account: 0, account_id: [account], sealed, control_levels, control: 0..0, policy: 0..0 };
    Ok((resource, RawResource { policy, context, control }))
}

fn requesters(raw: &[RawPrincipal]) -> Result<Vec<Principal>, String> {
    raw.iter().enumerate().map(|(i, p)| requester(p).ok_or_else(|| format!("3 BadRequester at principals/{i}"))).collect()
}

fn requester(p: &RawPrincipal) -> Option<Principal> {
    let user = p.session.is_none();
    let (partition, account, rest) = principal_arn(p.arn, if user { "user" } else { "role" })?;
    let last = rest.rsplit('/').next()?;
    let name = match p.session {
        None => p.arn,
        Some(s) if segment(s.as_bytes()) => leak(format!("arn:{partition}:sts::{account}:assumed-role/{last}/{s}")),
        Some(_) => return None,
    };
    Some(Principal {
        name,
        arn: p.arn,
        partition,
        account: 0,
        derived: [p.arn, last, if user { "User" } else { "AssumedRole" }, account],
        user,
        identity: 0..0,
        boundary: 0..0,
        session: 0..0,
        has_boundary: p.boundary.is_some(),
        has_session: !p.session_policies.is_empty(),
    })
}

fn names(it: &Shape) -> Result<(), String> {
    if let Some(i) = it.actions.iter().position(|a| !action_ok(a)) {
        return Err(format!("4 BadAction at actions/{i}"));
    }
    if let Some(i) = it.resources.iter().position(|r| !resource_ok(r.arn)) {
        return Err(format!("5 BadResourceArn at resources/{i}"));
    }
    Ok(())
}

fn homes(ids: &Map<&'static str, u32>, principals: &mut [Principal], resources: &mut [Resource]) -> Result<(), String> {
    for (i, p) in principals.iter_mut().enumerate() {
        p.account = *ids.get(p.derived[3]).ok_or_else(|| format!("6 UnknownAccount at principals/{i}"))?;
    }
    for (i, r) in resources.iter_mut().enumerate() {
        r.account = *ids.get(r.account_id[0]).ok_or_else(|| format!("6 UnknownAccount at resources/{i}"))?;
    }
    Ok(())
}

fn contexts(it: &Shape) -> Result<(Keys, Part, Vec<Part>, Vec<Part>), String> {
    let mut cx = Contexts { keys: Keys::default(), parts: 0, one: Arena::new() };
    for k in DERIVED {
        cx.keys.id(k);
    }
    let fault = |path: String, n: u32| format!("7 Context at {path}: {n} {}", if n == 1 { "KeyTwice" } else { "DerivedKeyGiven" });
    let world_part = cx.part(it.context, IN_WORLD, 0).map_err(|n| fault("context".into(), n))?;
    let mut principal_parts = Vec::with_capacity(it.principals.len());
    for (i, p) in it.principals.iter().enumerate() {
        let part = cx.part(p.context, IN_PRINCIPAL, IN_WORLD).map_err(|n| fault(format!("principals/{i}/context"), n))?;
        principal_parts.push(part);
    }
    let mut resource_parts = Vec::with_capacity(it.raw_resources.len());
    for (i, r) in it.raw_resources.iter().enumerate() {
        let part = cx.part(r.context, IN_RESOURCE, IN_WORLD | IN_PRINCIPAL).map_err(|n| fault(format!("resources/{i}/context"), n))?;
        resource_parts.push(part);
    }
    // The derived keys, whose numbers are the least.
    for (k, f) in
        [(0, IN_PRINCIPAL), (1, IN_PRINCIPAL), (2, IN_PRINCIPAL), (3, IN_PRINCIPAL), (4, IN_RESOURCE), (5, IN_WORLD), (6, IN_WORLD)]
    {
        cx.keys.flags[k] = f;
    }
    Ok((cx.keys, world_part, principal_parts, resource_parts))
}

/// All statements so far, and how further documents join them.
#[derive(Default)]
struct Documents {
    statements: Vec<Statement>,
}

impl Documents {
    /// Reads one document; a refused one is named by its path.
    fn one(&mut self, doc: &Value, kind: Kind, place: Place, path: impl FnOnce() -> String) -> Result<(), String> {
        policy::read(doc, kind, place, &mut self.statements).map_err(|(s, n)| {
            let at = s.map_or("document".to_string(), |s| format!("statement {s}"));
            format!("8 Policy at {}: {at}: {n} {}", path(), FAULTS[n])
        })
    }

    /// Reads a list of documents; which statements they have.
    fn list(&mut self, docs: &[Value], kind: Kind, layer: Layer, level: u32, path: impl Fn() -> String) -> Result<Range<u32>, String> {
        let start = self.statements.len() as u32;
        for (p, doc) in docs.iter().enumerate() {
            self.one(doc, kind, Place { layer, level, policy: p as u32 }, || format!("{}/{p}", path()))?;
        }
        Ok(start..self.statements.len() as u32)
    }

    fn levels(&mut self, levels: &'static [Value], kind: Kind, layer: Layer, path: impl Fn() -> String) -> Result<Range<u32>, String> {
        let start = self.statements.len() as u32;
        for (l, level) in levels.iter().enumerate() {
            self.list(list(level).expect("each level is a list"), kind, layer, l as u32, || format!("{}/{l}", path()))?;
        }
        Ok(start..self.statements.len() as u32)
    }

    fn maybe(&mut self, doc: Option<&Value>, kind: Kind, layer: Layer, path: impl FnOnce() -> String) -> Result<Range<u32>, String> {
        let start = self.statements.len() as u32;
        if let Some(doc) = doc {
            self.one(doc, kind, Place { layer, level: 0, policy: 0 }, path)?;
        }
        Ok(start..self.statements.len() as u32)
    }
}

/// Reads all documents, layer by layer.
fn policies(it: &mut Shape, principals: &mut [Principal]) -> Result<Vec<Statement>, String> {
    let mut docs = Documents::default();
    for (i, org) in it.orgs.iter().enumerate() {
        it.accounts[i].org = docs.levels(org, Kind::Org, Layer::Org, || format!("accounts/{i}/org"))?;
    }
    for (i, r) in it.raw_resources.iter().enumerate() {
        it.resources[i].control = docs.levels(r.control, Kind::Control, Layer::Control, || format!("resources/{i}/control"))?;
    }
    for (i, r) in it.raw_resources.iter().enumerate() {
        it.resources[i].policy = docs.maybe(r.policy, Kind::Resource, Layer::Resource, || format!("resources/{i}/policy"))?;
    }
    for (i, p) in it.principals.iter().enumerate() {
        principals[i].identity = docs.list(p.identity, Kind::Identity, Layer::Identity, 0, || format!("principals/{i}/identity"))?;
    }
    for (i, p) in it.principals.iter().enumerate() {
        principals[i].boundary = docs.maybe(p.boundary, Kind::Identity, Layer::Boundary, || format!("principals/{i}/boundary"))?;
    }
    for (i, p) in it.principals.iter().enumerate() {
        principals[i].session =
            docs.list(p.session_policies, Kind::Identity, Layer::Session, 0, || format!("principals/{i}/sessionPolicies"))?;
    }
    Ok(docs.statements)
}

struct RawPrincipal {
    arn: &'static str,
    session: Option<&'static str>,
    identity: &'static [Value],
    boundary: Option<&'static Value>,
    session_policies: &'static [Value],
    context: &'static [Member],
}

struct RawResource {
    policy: Option<&'static Value>,
    context: &'static [Member],
    control: &'static [Value],
}

pub fn object(v: &'static Value) -> Option<&'static [Member]> {
    match *v {
        Value::Object(m) => Some(m),
        _ => None,
    }
}

fn list(v: &'static Value) -> Option<&'static [Value]> {
    match *v {
        Value::List(l) => Some(l),
        _ => None,
    }
}

/// A Boolean that may be absent, which is false; none where another value stands.
fn truth(v: Option<&Value>) -> Option<bool> {
    match v {
        None => Some(false),
        Some(&Value::Bool(b)) => Some(b),
        Some(_) => None,
    }
}

/// Looks members up by name and counts those that were asked for.
struct Members {
    m: &'static [Member],
    known: usize,
}

impl Members {
    fn get(&mut self, name: &str) -> Option<&'static Value> {
        let v = self.m.iter().find(|x| x.0 == name).map(|x| &x.1);
        self.known += v.is_some() as usize;
        v
    }
    /// The list of this name, which has to be there.
    fn list(&mut self, name: &str) -> Result<&'static [Value], String> {
        self.get(name).and_then(list).ok_or_else(|| bad(name))
    }

    fn rest(&self) -> bool {
        self.known < self.m.len()
    }
}

pub fn context_shape(v: Option<&'static Value>) -> Option<&'static [Member]> {
    let fine = |x: &Value| matches!(x, Value::Text(_) | Value::Bool(_) | Value::Unsigned(_) | Value::Negative(_));
    match v {
        None => Some(&[]),
        Some(&Value::Object(m)) => {
            let ok = m.iter().all(|x| match x.1 {
                Value::List(l) => l.iter().all(fine),
                ref one => fine(one),
            });
            if ok {
                Some(m)
            } else {
                None
            }
        }
        _ => None,
    }
}

fn levels(v: Option<&'static Value>, path: impl Fn() -> String) -> Result<&'static [Value], String> {
    let l = match v {
        None => return Ok(&[]),
        Some(v) => list(v).ok_or_else(&path)?,
    };
    for (i, x) in l.iter().enumerate() {
        list(x).ok_or_else(|| format!("{}/{}", path(), i))?;
    }
    Ok(l)
}

fn digits12(t: &str) -> bool {
    t.len() == 12 && t.bytes().all(|c| c.is_ascii_digit())
}

fn segment(b: &[u8]) -> bool {
    !b.is_empty() && b.iter().all(|&c| (0x21..=0x7e).contains(&c) && c != b'*' && c != b'?' && c != b'/')
}

/// Partition, account and the path and name of a user or a role.
fn principal_arn(t: &'static str, word: &str) -> Option<(&'static str, &'static str, &'static str)> {
    let rest = t.strip_prefix("arn:")?;
    let (partition, rest) = rest.split_once(':')?;
    let rest = rest.strip_prefix("iam::")?;
    let (account, rest) = rest.split_once(':')?;
    let rest = rest.strip_prefix(word)?.strip_prefix('/')?;
    let ok = !partition.is_empty()
        && partition.bytes().all(|c| c.is_ascii_alphanumeric() || c == b'-')
        && digits12(account)
        && rest.as_bytes().split(|&c| c == b'/').all(segment);
    if ok {
        Some((partition, account, rest))
    } else {
        None
    }
}

fn action_ok(t: &str) -> bool {
    match t.split_once(':') {
        None => false,
        Some((p, n)) => {
            !p.is_empty()
                && !n.is_empty()
                && p.bytes().all(|c| c.is_ascii_alphanumeric() || c == b'-')
                && n.bytes().all(|c| c.is_ascii_alphanumeric() || matches!(c, b'-' | b'_' | b'.'))
        }
    }
}

pub fn resource_ok(t: &str) -> bool {
    t == "*" || (t.starts_with("arn:") && t.bytes().filter(|&c| c == b':').count() >= 5)
}
