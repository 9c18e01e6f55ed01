//! The rows of cells, written into a buffer.
use super::sets::Table;
use super::texts::{put, put_k, Shared, PAD};
use super::{Form, WORDS};
use crate::engine::State;

/// One worker's own things.
pub(super) struct Worker<'a> {
    pub(super) sh: &'a Shared<'a>,
    pub(super) codes: Vec<u8>,
    pub(super) start: Vec<u8>,
}

/// About how many bytes go out at a time: they should still be in a near cache then.
pub(super) const PIECE: usize = 256 << 10;

/// The longest piece of buffer that is set aside at once.
pub(super) const ROOM: usize = 8 << 20;

impl<'a> Worker<'a> {
    pub(super) fn new(sh: &'a Shared<'a>) -> Self {
        Worker { sh, codes: Vec::new(), start: Vec::new() }
    }

    /// Appends the rows of the cells from `from` to below `to`, counted within the principal.
    pub(super) fn cells(&mut self, st: &State, table: &Table, from: usize, to: usize, out: &mut Vec<u8>) {
        let sh = self.sh;
        let (nr, brief) = (sh.nr, sh.form.brief());
        let (a0, a1) = (from / nr, (to - 1) / nr);
        for a in a0..=a1 {
            let r0 = if a == a0 { from % nr } else { 0 };
            let r1 = if a == a1 { to - a * nr } else { nr };
            let cell = ((st.p * sh.na + a) * nr + r0) as u64;
            self.start.clear();
            if !sh.form.json() {
                self.start.push(b',');
                self.start.extend_from_slice(sh.prin.text(st.p));
            }
            self.start.extend_from_slice(sh.act.text(a));
            let n = self.start.len();
            self.start.resize(n + PAD, 0);
            let ac = sh.e.class_of[a] as usize;
            if brief {
                self.codes_of(st, ac);
            }
            match sh.res.chunks {
                1 => self.run::<1>(st, table, ac, r0, r1, cell, n, out),
                2 => self.run::<2>(st, table, ac, r0, r1, cell, n, out),
                3 => self.run::<3>(st, table, ac, r0, r1, cell, n, out),
                4 => self.run::<4>(st, table, ac, r0, r1, cell, n, out),
                _ => self.run::<0>(st, table, ac, r0, r1, cell, n, out),
            }
        }
    }

    /// The decisions of one class of actions, by class of resources.
    pub(super) fn codes_of(&mut self, st: &State, ac: usize) {
        let nrc = st.nrc();
        let (w, b) = (ac / 64, ac % 64);
        let (al, de) = (&st.allow[w * nrc..w * nrc + nrc], &st.deny[w * nrc..w * nrc + nrc]);
        self.codes.clear();
        self.codes.extend(al.iter().zip(de).map(|(x, y)| ((x >> b) & 1) as u8 | (((y >> b) & 1) as u8) << 1));
    }

    /// The rows of one principal and action, for resources r0 to below r1.
    #[allow(clippy::too_many_arguments)]
    pub(super) fn run<const K: usize>(
        &mut self,
        st: &State,
        table: &Table,
        ac: usize,
        r0: usize,
        r1: usize,
        cell: u64,
        n: usize,
        out: &mut Vec<u8>,
    ) {
        let sh = self.sh;
        let nrc = st.nrc();
        let (res, rc_of) = (&sh.res, &st.rc_of[..]);
        let ids: &[u32] = if sh.form.brief() { &[] } else { table.row(ac, nrc) };
        let sets = &table.sets;
        let codes = &self.codes[..];
        let start = self.start.as_ptr();
        // The middle texts of the JSON forms: of each decision, or of the principal.
        let mut mids: [Vec<u8>; 3] = Default::default();
        if sh.form.json() {
            for (d, m) in mids.iter_mut().enumerate() {
                if sh.form == Form::JsonBrief {
                    m.extend_from_slice(format!(",\"decision\":\"{}\",\"principal\":\"", WORDS[d]).as_bytes());
                }
                m.extend_from_slice(sh.prin.text(st.p));
                let n = m.len();
                m.resize(n + PAD, 0);
            }
        }
        let mid = |d: usize| (mids[d].as_ptr(), mids[d].len() - PAD);
        let mid_max = mids.iter().map(|m| m.len()).max().unwrap();
        const DEC: [[u8; 16]; 3] = [*b"implicitDeny\n\0\0\0", *b"allowed\n\0\0\0\0\0\0\0\0", *b"explicitDeny\n\0\0\0"];
        const LEN: [usize; 3] = [13, 8, 13];
        let row = 8 + n + res.max + mid_max + sets.max + 32;
        let step = (ROOM / row).clamp(1, r1 - r0);
        let mut r = r0;
        let mut cell = cell;
        while r < r1 {
            let stop = r1.min(r + step);
            out.reserve((stop - r) * row + 4 * PAD);
            // SAFETY: each row takes at most `row` bytes, and no copy goes over its text by more than 4 chunks.
            unsafe {
                let mut to = out.as_mut_ptr().add(out.len());
                while r < stop {
                    // A run under which all digits but the last four stay.
                    let high = cell / 10_000;
                    let low = (cell % 10_000) as usize;
                    let end = stop.min(r + 10_000 - low);
                    let mut hi = [b' '; 4];
                    let mut hn = 0;
                    if high > 0 {
                        let s = high.to_string();
                        hn = s.len();
                        hi[..hn].copy_from_slice(s.as_bytes());
                    }
                    let mut digits = sh.digits.as_ptr().add(low);
                    macro_rules! number {
                        () => {
                            if hn > 0 {
                                to.cast::<[u8; 4]>().write_unaligned(hi);
                                to.add(hn).cast::<[u8; 4]>().write_unaligned(*digits);
                                to = to.add(hn + 4);
                            } else {
                                let d = *digits;
                                let skip = d[..3].iter().take_while(|&&c| c == b'0').count();
                                for &c in &d[skip..] {
                                    to.write(c);
                                    to = to.add(1);
                                }
                            }
                            digits = digits.add(1);
                        };
                    }
                    match sh.form {
                        Form::CsvBrief => {
                            for i in r..end {
                                number!();
                                to = put(to, start, n);
                                let (t, l) = res.get(i);
                                to = put_k::<K>(to, t, l);
                                let c = *codes.get_unchecked(*rc_of.get_unchecked(i) as usize) as usize;
                                to.cast::<[u8; 16]>().write_unaligned(*DEC.get_unchecked(c));
                                to = to.add(*LEN.get_unchecked(c));
                            }
                        }
                        Form::Csv => {
                            for i in r..end {
                                number!();
                                to = put(to, start, n);
                                let (t, l) = res.get(i);
                                to = put_k::<K>(to, t, l);
                                let id = *ids.get_unchecked(*rc_of.get_unchecked(i) as usize);
                                let (s, l, _) = *sets.tail.get_unchecked(id as usize);
                                to = put(to, sets.text.as_ptr().add(s as usize), l as usize);
                            }
                        }
                        Form::JsonBrief => {
                            for i in r..end {
                                to = put(to, start, n);
                                number!();
                                let c = *codes.get_unchecked(*rc_of.get_unchecked(i) as usize) as usize;
                                let (t, l) = mid(c);
                                to = put(to, t, l);
                                let (t, l) = res.get(i);
                                to = put_k::<K>(to, t, l);
                            }
                        }
                        Form::Json => {
                            for i in r..end {
                                to = put(to, start, n);
                                number!();
                                let id = *ids.get_unchecked(*rc_of.get_unchecked(i) as usize);
                                let (s, l, m) = *sets.tail.get_unchecked(id as usize);
                                let s = sets.text.as_ptr().add(s as usize);
                                to = put(to, s, m as usize);
                                let (t, k) = mid(0);
                                to = put(to, t, k);
                                let (t, k) = res.get(i);
                                to = put_k::<K>(to, t, k);
                                to = put(to, s.add(m as usize), (l - m) as usize);
                            }
                        }
                    }
                    let _ = digits;
                    cell += (end - r) as u64;
                    r = end;
                }
                let len = to.offset_from(out.as_ptr()) as usize;
                out.set_len(len);
            }
        }
    }
}
