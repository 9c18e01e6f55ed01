//! Context keys by number, and which object of the world gives each.
use crate::arena::{leak, Arena};
use crate::hashing::Map;
use crate::json::{scalar_text, Member, Value};

#[derive(Clone, Copy, PartialEq, Eq, Debug)]
#[repr(u8)]
pub enum Source {
    World,
    Principal,
    Resource,
}

/// Where each context key comes from. The rule on keys that come twice gives each one place.
#[derive(Default)]
pub struct Keys {
    map: Map<&'static str, u32>,
    folded: String,
    pub flags: Vec<u8>,
    stamp: Vec<u32>,
}

pub type Values = &'static [&'static str];

pub type Part = Vec<(u32, Values)>;

pub const IN_WORLD: u8 = 1;

pub const IN_PRINCIPAL: u8 = 2;

pub const IN_RESOURCE: u8 = 4;

pub const DERIVED: [&str; 7] = [
    "aws:principalarn",
    "aws:username",
    "aws:principaltype",
    "aws:principalaccount",
    "aws:resourceaccount",
    "aws:currenttime",
    "aws:epochtime",
];

impl Keys {
    pub fn id(&mut self, key: &'static str) -> u32 {
        let upper = key.bytes().any(|c| c.is_ascii_uppercase());
        if upper {
            self.folded.clear();
            self.folded.push_str(key);
            self.folded.make_ascii_lowercase();
        }
        if let Some(&id) = self.map.get(if upper { self.folded.as_str() } else { key }) {
            return id;
        }
        let id = self.flags.len() as u32;
        self.map.insert(if upper { leak(self.folded.clone()) } else { key }, id);
        self.flags.push(0);
        self.stamp.push(0);
        id
    }

    pub fn source(&self, id: u32) -> Source {
        let f = self.flags[id as usize];
        if f & IN_PRINCIPAL != 0 {
            Source::Principal
        } else if f & IN_RESOURCE != 0 {
            Source::Resource
        } else {
            Source::World
        }
    }
}

pub struct Contexts {
    pub keys: Keys,
    pub parts: u32,
    pub one: Arena<&'static str>,
}

impl Contexts {
    /// The part's keys and values, or fault 1 or 2.
    pub fn part(&mut self, m: &'static [Member], mark: u8, against: u8) -> Result<Part, u32> {
        if m.is_empty() {
            return Ok(Part::new());
        }
        self.parts += 1;
        let (mut twice, mut derived) = (false, false);
        let mut out = Part::new();
        let mut texts = Vec::new();
        for (k, v) in m {
            let id = self.keys.id(k);
            let i = id as usize;
            twice |= self.keys.stamp[i] == self.parts || self.keys.flags[i] & against != 0;
            derived |= i < DERIVED.len();
            self.keys.stamp[i] = self.parts;
            texts.clear();
            match v {
                Value::List(l) => texts.extend(l.iter().map(scalar_text)),
                one => texts.push(scalar_text(one)),
            }
            out.push((id, self.one.put(&texts)));
        }
        if twice {
            return Err(1);
        }
        if derived {
            return Err(2);
        }
        for (k, _) in m {
            let id = self.keys.id(k);
            self.keys.flags[id as usize] |= mark;
        }
        out.sort_unstable_by_key(|x| x.0);
        Ok(out)
    }
}
