//! Texts of which rows are put together by copies of fixed width, into room that reaches past their end.
use super::{csv_into, Form, BRIEF_HEAD, FULL_HEAD};
use crate::decide::place_text;
use crate::engine::Engine;
use crate::json::escape_into;

/// What all workers share.
pub(super) struct Shared<'a> {
    pub(super) e: &'a Engine,
    pub(super) form: Form,
    pub(super) na: usize,
    pub(super) nr: usize,
    pub(super) res: Pack,
    pub(super) act: Pack,
    pub(super) prin: Pack,
    pub(super) places: Vec<String>,
    pub(super) digits: Vec<[u8; 4]>,
}

impl<'a> Shared<'a> {
    pub(super) fn new(e: &'a Engine, form: Form) -> Shared<'a> {
        let w = &e.w;
        let text = |s: &str, end: &str, f: fn(&mut Vec<u8>, &str)| {
            let mut v = Vec::with_capacity(s.len() + end.len());
            f(&mut v, s);
            v.extend_from_slice(end.as_bytes());
            v
        };
        let f = if form.json() { escape_into } else { csv_into };
        let (res_end, act_end, prin_end) = match form {
            Form::Csv | Form::CsvBrief => (",", ",", ","),
            Form::Json => ("\",\"statements\":[", "\",\"cell\":", "\",\"resource\":\""),
            Form::JsonBrief => ("\"}", "\",\"cell\":", "\",\"resource\":\""),
        };
        let act = w.actions.iter().map(|a| {
            let mut v = if form.json() { b",{\"action\":\"".to_vec() } else { Vec::new() };
            v.extend_from_slice(&text(a, act_end, f));
            v
        });
        let mut digits = Vec::with_capacity(10_000);
        for i in 0..10_000u32 {
            let d = |k: u32| b'0' + (i / k % 10) as u8;
            digits.push([d(1000), d(100), d(10), d(1)]);
        }
        Shared {
            form,
            na: w.actions.len(),
            nr: w.resources.len(),
            res: Pack::new(w.resources.iter().map(|r| text(r.arn, res_end, f)).collect()),
            act: Pack::new(act.collect()),
            prin: Pack::new(w.principals.iter().map(|p| text(p.name, prin_end, f)).collect()),
            places: if form.brief() { Vec::new() } else { w.statements.iter().map(place_text).collect() },
            digits,
            e,
        }
    }

    pub(super) fn head(&self) -> &'static str {
        match self.form {
            Form::Csv => FULL_HEAD,
            Form::CsvBrief => BRIEF_HEAD,
            _ => "",
        }
    }
}

pub(super) const PAD: usize = 64;

pub(super) const CH: usize = 32;

/// Texts in one buffer, each readable for some bytes past its end. With a
/// stride of 1 to 4 chunks each text stands in a slot of that many chunks.
pub(super) struct Pack {
    pub(super) buf: Vec<u8>,
    pub(super) at: Vec<(u32, u32)>,
    pub(super) chunks: usize,
    pub(super) max: usize,
}

impl Pack {
    pub(super) fn new(list: Vec<Vec<u8>>) -> Pack {
        let max = list.iter().map(|x| x.len()).max().unwrap_or(0);
        let chunks = max.div_ceil(CH).max(1);
        let fixed = chunks <= 4;
        let (mut buf, mut at) = (Vec::new(), Vec::new());
        for x in list {
            at.push((buf.len() as u32, x.len() as u32));
            buf.extend_from_slice(&x);
            if fixed {
                let to = buf.len() - x.len() + chunks * CH;
                buf.resize(to, 0);
            }
        }
        buf.resize(buf.len() + PAD, 0);
        Pack { buf, at, chunks: if fixed { chunks } else { 0 }, max }
    }

    #[inline(always)]
    pub(super) fn get(&self, i: usize) -> (*const u8, usize) {
        // SAFETY: offsets lie within the buffer.
        unsafe {
            let (a, n) = *self.at.get_unchecked(i);
            (self.buf.as_ptr().add(a as usize), n as usize)
        }
    }

    pub(super) fn text(&self, i: usize) -> &[u8] {
        let (a, n) = self.at[i];
        &self.buf[a as usize..(a + n) as usize]
    }
}

/// Copies whole chunks; both sides have room past the end.
#[inline(always)]
pub(super) unsafe fn put(to: *mut u8, from: *const u8, n: usize) -> *mut u8 {
    let mut i = 0;
    loop {
        let x = from.add(i).cast::<[u8; CH]>().read_unaligned();
        to.add(i).cast::<[u8; CH]>().write_unaligned(x);
        i += CH;
        if i >= n {
            break;
        }
    }
    to.add(n)
}

/// The same with the number of chunks known, or any number where K is 0.
#[inline(always)]
pub(super) unsafe fn put_k<const K: usize>(to: *mut u8, from: *const u8, n: usize) -> *mut u8 {
    if K == 0 {
        return put(to, from, n);
    }
    for i in 0..K {
        let x = from.add(i * CH).cast::<[u8; CH]>().read_unaligned();
        to.add(i * CH).cast::<[u8; CH]>().write_unaligned(x);
    }
    to.add(n)
}
