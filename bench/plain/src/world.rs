//! The world: what it holds.
use crate::document::Statement;
use crate::keys::{Keys, Part, Source};
use std::ops::Range;

pub struct World {
    pub now: [&'static str; 2],
    pub accounts: Vec<Account>,
    pub principals: Vec<Principal>,
    pub actions: Vec<&'static str>,
    pub resources: Vec<Resource>,
    pub statements: Vec<Statement>,
    pub keys: Keys,
    pub world_part: Part,
    pub principal_parts: Vec<Part>,
    pub resource_parts: Vec<Part>,
    /// The keys that the request gives itself.
    pub own: Part,
}

#[derive(Debug)]
pub struct Account {
    pub id: &'static str,
    pub management: bool,
    pub org_levels: u32,
    pub org: Range<u32>,
}

#[derive(Debug)]
pub struct Principal {
    /// The user's or the session's ARN.
    pub name: &'static str,
    /// The user's or the role's ARN.
    pub arn: &'static str,
    pub partition: &'static str,
    pub account: u32,
    /// `aws:PrincipalArn`, `aws:username`, `aws:PrincipalType`, `aws:PrincipalAccount`.
    pub derived: [&'static str; 4],
    pub user: bool,
    pub identity: Range<u32>,
    pub boundary: Range<u32>,
    pub session: Range<u32>,
    pub has_boundary: bool,
    pub has_session: bool,
}

#[derive(Debug)]
pub struct Resource {
    pub arn: &'static str,
    pub account: u32,
    pub account_id: [&'static str; 1],
    pub sealed: bool,
    pub control_levels: u32,
    pub control: Range<u32>,
    pub policy: Range<u32>,
}

impl World {
    pub fn cells(&self) -> u64 {
        self.principals.len() as u64 * self.actions.len() as u64 * self.resources.len() as u64
    }

    /// The values of a key in the context of p and r.
    #[inline]
    pub fn values(&self, key: u32, p: usize, r: usize) -> &[&'static str] {
        let part = match key {
            1 if !self.principals[p].user => return &[],
            0..=3 => return &self.principals[p].derived[key as usize..key as usize + 1],
            4 => return &self.resources[r].account_id,
            5 | 6 => return &self.now[key as usize - 5..key as usize - 4],
            _ if self.own.iter().any(|x| x.0 == key) => &self.own,
            _ => match self.keys.source(key) {
                Source::World => &self.world_part,
                Source::Principal => &self.principal_parts[p],
                Source::Resource => &self.resource_parts[r],
            },
        };
        if part.len() <= 8 || std::ptr::eq(part, &self.own) {
            for x in part {
                if x.0 == key {
                    return x.1;
                }
            }
            return &[];
        }
        match part.binary_search_by_key(&key, |x| x.0) {
            Ok(i) => part[i].1,
            Err(_) => &[],
        }
    }
}
