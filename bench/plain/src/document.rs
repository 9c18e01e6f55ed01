//! Policy documents: their statements, or the least fault.
use crate::grammar::{action_pattern, aws_text, op_of, opens, variables_ok, Base, Op};
use crate::hashing::Set;
use crate::json::{decimal, Member, Value};
use crate::values as value;

#[derive(Clone, Copy, PartialEq, Eq, Debug)]
pub enum Kind {
    Identity,
    Resource,
    Org,
    Control,
}

pub const FAULTS: [&str; 22] = [
    "",
    "NotObject",
    "UnknownElement",
    "BadVersion",
    "NoStatement",
    "BadStatement",
    "BadSid",
    "DuplicateSid",
    "BadEffect",
    "ActionCount",
    "BadAction",
    "PrincipalMisplaced",
    "PrincipalMissing",
    "BadPrincipal",
    "NotPrincipalAllow",
    "ResourceCount",
    "BadResource",
    "BadVariable",
    "UnknownOperator",
    "BadCondition",
    "BadValue",
    "TooMany",
];

#[derive(Clone, Copy)]
pub struct Place {
    pub layer: Layer,
    pub level: u32,
    pub policy: u32,
}

pub type Refused = (Option<u32>, usize);

#[derive(Clone, Copy, Debug, PartialEq, Eq, PartialOrd, Ord)]
#[repr(u8)]
pub enum Layer {
    Org,
    Control,
    Resource,
    Identity,
    Boundary,
    Session,
}

#[derive(Clone, Copy, Debug)]
pub struct Statement {
    pub layer: Layer,
    pub level: u32,
    pub policy: u32,
    pub number: u32,
    pub deny: bool,
    /// `2008-10-17`: `${` begins no variable.
    pub old: bool,
    pub not_action: bool,
    pub actions: Texts,
    pub res: Resources,
    pub principal: Option<Principal>,
    pub conditions: &'static [Member],
}

#[derive(Clone, Copy, Debug)]
pub enum Resources {
    Absent,
    Is(Texts),
    Not(Texts),
}

#[derive(Clone, Copy, Debug)]
pub struct Principal {
    pub not: bool,
    /// The element is `*` itself.
    pub star: bool,
    /// The texts under `AWS`.
    pub aws: Option<Texts>,
}

/// A text or a list of texts.
#[derive(Clone, Copy, Debug)]
pub enum Texts {
    One(&'static str),
    Many(&'static [Value]),
}

impl Texts {
    pub fn len(&self) -> usize {
        match self {
            Texts::One(_) => 1,
            Texts::Many(l) => l.len(),
        }
    }

    pub fn iter(&self) -> impl Iterator<Item = &'static str> + '_ {
        let (one, many) = match *self {
            Texts::One(s) => (Some(s), &[][..]),
            Texts::Many(l) => (None, l),
        };
        one.into_iter().chain(many.iter().filter_map(|v| v.text()))
    }
}

pub fn read(doc: &Value, kind: Kind, place: Place, out: &mut Vec<Statement>) -> Result<(), Refused> {
    let members = match *doc {
        Value::Object(m) => m,
        _ => return Err((None, 1)),
    };
    let (mut unknown, mut version, mut statement) = (false, None, None);
    for (k, v) in members {
        match *k {
            "Version" => version = Some(v),
            "Id" => unknown |= v.text().is_none(),
            "Statement" => statement = Some(v),
            _ => unknown = true,
        }
    }
    if unknown {
        return Err((None, 2));
    }
    let old = match version.map(|v| v.text()) {
        None => true,
        Some(Some("2012-10-17")) => false,
        Some(Some("2008-10-17")) => true,
        _ => return Err((None, 3)),
    };
    let list: &[Value] = match statement {
        None => return Err((None, 4)),
        Some(v @ Value::Object(_)) => std::slice::from_ref(v),
        Some(Value::List(l)) => l,
        _ => return Err((None, 5)),
    };
    if list.len() > 4096 {
        return Err((None, 21));
    }
    let mut sids = Set::default();
    for (i, v) in list.iter().enumerate() {
        let s = statement_of(v, Around { kind, old, place, number: i as u32 }, &mut sids).map_err(|n| (Some(i as u32), n))?;
        out.push(s);
    }
    Ok(())
}

/// Gathers faults; the least is answered.
struct Faults(u32);

impl Faults {
    #[inline]
    fn add(&mut self, n: u32, is: bool) {
        self.0 |= (is as u32) << n;
    }
}

/// The elements of a statement, as they stand in it.
#[derive(Default)]
struct Elements {
    sid: Option<&'static Value>,
    effect: Option<&'static Value>,
    action: Option<&'static Value>,
    not_action: Option<&'static Value>,
    resource: Option<&'static Value>,
    not_resource: Option<&'static Value>,
    principal: Option<&'static Value>,
    not_principal: Option<&'static Value>,
    condition: Option<&'static Value>,
}

impl Elements {
    fn of(members: &'static [Member], f: &mut Faults) -> Elements {
        let mut it = Elements::default();
        for (name, v) in members {
            let place = match *name {
                "Sid" => &mut it.sid,
                "Effect" => &mut it.effect,
                "Action" => &mut it.action,
                "NotAction" => &mut it.not_action,
                "Resource" => &mut it.resource,
                "NotResource" => &mut it.not_resource,
                "Principal" => &mut it.principal,
                "NotPrincipal" => &mut it.not_principal,
                "Condition" => &mut it.condition,
                _ => {
                    f.add(2, true);
                    continue;
                }
            };
            *place = Some(v);
        }
        it
    }

    fn effect(&self) -> Option<&'static str> {
        self.effect.and_then(|v| v.text())
    }

    fn actions(&self, f: &mut Faults) -> Texts {
        f.add(9, self.action.is_some() == self.not_action.is_some());
        let mut actions = Texts::Many(&[]);
        for v in [self.action, self.not_action].into_iter().flatten() {
            match texts_of(v) {
                Some(t) => {
                    f.add(10, !t.iter().all(action_pattern));
                    actions = t;
                }
                None => f.add(10, true),
            }
            f.add(21, too_many(v));
        }
        actions
    }

    fn principal(&self, kind: Kind, f: &mut Faults) -> Option<Principal> {
        let (principal, not_principal) = (self.principal, self.not_principal);
        match kind {
            Kind::Identity | Kind::Org => {
                f.add(11, principal.is_some() || not_principal.is_some());
                None
            }
            Kind::Resource => {
                f.add(12, principal.is_none() && not_principal.is_none());
                f.add(13, principal.is_some() && not_principal.is_some());
                f.add(14, not_principal.is_some() && self.effect() == Some("Allow"));
                let mut element = None;
                for (v, not) in [(principal, false), (not_principal, true)] {
                    if let Some(v) = v {
                        element = principal_of(v, not, f);
                        f.add(13, element.is_none());
                    }
                }
                element
            }
            Kind::Control => {
                let everyone = matches!(
                    principal,
                    Some(Value::Text("*") | Value::Object([("AWS", Value::Text("*") | Value::List([Value::Text("*")]))]))
                );
                f.add(13, !everyone || not_principal.is_some());
                Some(Principal { not: false, star: true, aws: None })
            }
        }
    }

    fn resources(&self, kind: Kind, old: bool, f: &mut Faults) -> Resources {
        f.add(15, self.resource.is_some() && self.not_resource.is_some());
        f.add(15, self.resource.is_none() && self.not_resource.is_none() && kind != Kind::Resource);
        let mut res = Resources::Absent;
        for (v, not) in [(self.resource, false), (self.not_resource, true)] {
            let Some(v) = v else { continue };
            f.add(21, too_many(v));
            match texts_of(v) {
                Some(t) => res = if not { Resources::Not(t) } else { Resources::Is(t) },
                None => f.add(16, true),
            }
            let each = match v {
                Value::List(l) => l,
                one => std::slice::from_ref(one),
            };
            for t in each.iter().filter_map(|x| x.text()) {
                resource_faults(t, old, f);
            }
        }
        res
    }

    fn conditions(&self, old: bool, f: &mut Faults) -> &'static [Member] {
        match self.condition {
            None => &[],
            Some(Value::Object(m)) => {
                for (name, v) in m.iter() {
                    match op_of(name) {
                        None => f.add(18, true),
                        Some(op) => condition_faults(&op, v, old, f),
                    }
                }
                m
            }
            Some(_) => {
                f.add(19, true);
                &[]
            }
        }
    }
}

/// What stands beside a statement: the kind and version of its document, its place and number.
#[derive(Clone, Copy)]
struct Around {
    kind: Kind,
    old: bool,
    place: Place,
    number: u32,
}

/// A statement, or its least fault; `sids` are those before it.
fn statement_of(v: &Value, around: Around, sids: &mut Set<&'static str>) -> Result<Statement, usize> {
    let Around { kind, old, place, number } = around;
    let Value::Object(members) = *v else { return Err(5) };
    let mut f = Faults(0);
    let it = Elements::of(members, &mut f);
    match it.sid {
        Some(&Value::Text(t)) => {
            let distinct = !t.is_empty() && matches!(kind, Kind::Identity | Kind::Org);
            f.add(7, distinct && !sids.insert(t));
        }
        Some(_) => f.add(6, true),
        None => {}
    }
    f.add(8, !matches!(it.effect(), Some("Allow" | "Deny")));
    let statement = Statement {
        layer: place.layer,
        level: place.level,
        policy: place.policy,
        number,
        deny: it.effect() == Some("Deny"),
        old,
        not_action: it.not_action.is_some(),
        actions: it.actions(&mut f),
        res: it.resources(kind, old, &mut f),
        principal: it.principal(kind, &mut f),
        conditions: it.conditions(old, &mut f),
    };
    match f.0 {
        0 => Ok(statement),
        faults => Err(faults.trailing_zeros() as usize),
    }
}

fn resource_faults(t: &str, old: bool, f: &mut Faults) {
    f.add(16, t != "*" && !t.starts_with("arn:"));
    if old {
        return;
    }
    if let Some(i) = opens(t) {
        let colons = t.as_bytes()[..i].iter().filter(|&&c| c == b':').count();
        f.add(17, colons < 5 || !variables_ok(t, i));
    }
}

fn texts_of(v: &Value) -> Option<Texts> {
    match *v {
        Value::Text(s) => Some(Texts::One(s)),
        Value::List(l) if !l.is_empty() && l.iter().all(|x| matches!(x, Value::Text(_))) => Some(Texts::Many(l)),
        _ => None,
    }
}

fn too_many(v: &Value) -> bool {
    matches!(v, Value::List(l) if l.len() > 4096)
}

fn condition_faults(op: &Op, v: &Value, old: bool, f: &mut Faults) {
    let keys = match v {
        Value::Object(m) => m,
        _ => return f.add(19, true),
    };
    for (key, v) in keys.iter() {
        f.add(19, key.is_empty());
        match v {
            Value::Object(_) | Value::Null => f.add(19, true),
            Value::List(l) => {
                f.add(21, l.len() > 4096);
                for x in l.iter() {
                    value_faults(op, x, old, f)
                }
            }
            one => value_faults(op, one, old, f),
        }
    }
}

fn value_faults(op: &Op, v: &Value, old: bool, f: &mut Faults) {
    let mut buf = [0u8; 24];
    let t = match v {
        Value::Text(s) => s,
        Value::Bool(true) => "true",
        Value::Bool(false) => "false",
        Value::Unsigned(n) => decimal(&mut buf, *n, false),
        Value::Negative(n) => decimal(&mut buf, n.unsigned_abs(), true),
        _ => return f.add(20, true),
    };
    match op.base {
        Base::Str { .. } | Base::Arn { .. } => {
            if !old {
                if let Some(i) = opens(t) {
                    f.add(17, !variables_ok(t, i));
                }
            }
        }
        Base::Num(_) => f.add(20, value::whole(t).is_none()),
        Base::Date(_) => f.add(20, value::moment(t).is_none()),
        Base::Bool | Base::Null => f.add(20, value::truth(t).is_none()),
        Base::Binary => f.add(20, value::bytes(t).is_none()),
        Base::Ip { .. } => f.add(20, value::Range::read(t).is_none()),
    }
}

fn principal_of(v: &Value, not: bool, f: &mut Faults) -> Option<Principal> {
    match *v {
        Value::Text("*") => Some(Principal { not, star: true, aws: None }),
        Value::Object(m) if !m.is_empty() => {
            let mut p = Principal { not, star: false, aws: None };
            for (k, v) in m {
                f.add(21, too_many(v));
                let t = texts_of(v)?;
                match *k {
                    "AWS" => {
                        if !t.iter().all(aws_text) {
                            return None;
                        }
                        p.aws = Some(t);
                    }
                    "Service" | "Federated" | "CanonicalUser" => {}
                    _ => return None,
                }
            }
            Some(p)
        }
        _ => None,
    }
}
