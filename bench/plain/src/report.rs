//! Reports of all cells, and the first allowed one.
use self::rows::{Worker, PIECE};
use self::sets::Table;
use self::texts::{Pack, Shared};
use crate::bits::each_bit;
use crate::decide::{place_text, Decision, LACKS};
use crate::engine::{Engine, Memo, State};
use crate::json::escape_into;
use crate::output::{widen_pipe, Ordered};
use crate::threads::spawn;
use crate::world::World;
use std::sync::atomic::{AtomicU64, AtomicUsize, Ordering};
use std::sync::{Arc, Condvar, Mutex};

mod rows;
mod sets;
mod texts;

pub const WORDS: [&str; 3] = ["implicitDeny", "allowed", "explicitDeny"];

pub const FULL_HEAD: &str = "cell,principal,action,resource,decision,statements,lacks\n";

pub const BRIEF_HEAD: &str = "cell,principal,action,resource,decision\n";

#[derive(Clone, Copy, PartialEq)]
pub enum Form {
    Csv,
    CsvBrief,
    Json,
    JsonBrief,
}

impl Form {
    fn json(self) -> bool {
        matches!(self, Form::Json | Form::JsonBrief)
    }
    fn brief(self) -> bool {
        matches!(self, Form::CsvBrief | Form::JsonBrief)
    }
}

/// One row of the full CSV form.
pub fn csv_row(w: &World, cell: u64, p: usize, a: usize, r: usize, v: &(Decision, Vec<u32>, u8)) -> Vec<u8> {
    let mut out = csv_start(w, cell, p, a, r, v.0 as usize);
    out.push(b',');
    for (i, s) in v.1.iter().enumerate() {
        if i > 0 {
            out.push(b' ');
        }
        out.extend_from_slice(place_text(&w.statements[*s as usize]).as_bytes());
    }
    out.push(b',');
    let mut first = true;
    each_bit(v.2 as u64, |b| {
        if !first {
            out.push(b' ');
        }
        first = false;
        out.extend_from_slice(LACKS[b].as_bytes());
    });
    out.push(b'\n');
    out
}

/// What stands before all rows, and after them.
pub fn opening(form: Form) -> &'static str {
    match form {
        Form::Csv => FULL_HEAD,
        Form::CsvBrief => BRIEF_HEAD,
        Form::Json | Form::JsonBrief => "[",
    }
}

pub fn closing(form: Form) -> &'static str {
    if form.json() {
        "]\n"
    } else {
        ""
    }
}

/// A row by itself.
pub fn row(w: &World, form: Form, n: u64, [p, a, r]: [usize; 3], v: &(Decision, Vec<u32>, u8)) -> Vec<u8> {
    match form {
        Form::Csv => csv_row(w, n, p, a, r, v),
        Form::CsvBrief => {
            let mut out = csv_start(w, n, p, a, r, v.0 as usize);
            out.push(b'\n');
            out
        }
        Form::Json | Form::JsonBrief => json_row(w, form, n, [p, a, r], v),
    }
}

fn json_row(w: &World, form: Form, n: u64, [p, a, r]: [usize; 3], v: &(Decision, Vec<u32>, u8)) -> Vec<u8> {
    let text = |s: &str| {
        let mut out = b"\"".to_vec();
        escape_into(&mut out, s);
        out.push(b'"');
        String::from_utf8(out).expect("a text of JSON")
    };
    let list = |texts: Vec<String>| format!("[{}]", texts.iter().map(|t| text(t)).collect::<Vec<_>>().join(","));
    let mut lacks = Vec::new();
    each_bit(v.2 as u64, |b| lacks.push(LACKS[b].to_string()));
    let places = v.1.iter().map(|s| place_text(&w.statements[*s as usize])).collect();
    let (lacks, places) = if form.brief() {
        (String::new(), String::new())
    } else {
        (format!("\"lacks\":{},", list(lacks)), format!(",\"statements\":{}", list(places)))
    };
    let comma = if n > 0 { "," } else { "" };
    let (action, word) = (text(w.actions[a]), WORDS[v.0 as usize]);
    let (principal, resource) = (text(w.principals[p].name), text(w.resources[r].arn));
    format!(
        "{comma}{{\"action\":{action},\"cell\":{n},\"decision\":\"{word}\",{lacks}\"principal\":{principal},\"resource\":{resource}{places}}}"
    )
    .into_bytes()
}

/// The five fields of the brief form.
pub fn csv_start(w: &World, cell: u64, p: usize, a: usize, r: usize, decision: usize) -> Vec<u8> {
    let mut out = cell.to_string().into_bytes();
    for f in [w.principals[p].name, w.actions[a], w.resources[r].arn, WORDS[decision]] {
        out.push(b',');
        csv_into(&mut out, f);
    }
    out
}

pub fn csv_into(out: &mut Vec<u8>, s: &str) {
    if s.bytes().any(|c| matches!(c, b',' | b'"' | b'\r' | b'\n')) {
        out.push(b'"');
        for c in s.bytes() {
            if c == b'"' {
                out.push(c);
            }
            out.push(c);
        }
        out.push(b'"');
    } else {
        out.extend_from_slice(s.as_bytes());
    }
}

/// What a worker makes of a principal and others wait for.
#[derive(Default)]
struct Made {
    m: Mutex<Option<Arc<(State, Table)>>>,
    there: Condvar,
    left: AtomicUsize,
}

/// The report of all cells, as the workers make it.
struct Job<'a> {
    sh: Shared<'a>,
    ordered: Ordered,
    next: AtomicUsize,
    /// The principals, the cells of each, the most threads, the cells of about so many bytes.
    principals: usize,
    cells: usize,
    threads: usize,
    row: usize,
}

/// Writes the report of all cells; false where the output failed.
pub fn matrix(e: &Engine, form: Form, workers: usize) -> bool {
    let sh = Shared::new(e, form);
    let (principals, cells) = (e.w.principals.len(), sh.na * sh.nr);
    let mean = |p: &Pack| p.at.iter().map(|x| x.1 as usize).sum::<usize>() / p.at.len().max(1);
    let row = 24 + mean(&sh.prin) + mean(&sh.act) + mean(&sh.res) + if form.brief() { 0 } else { 40 };
    if principals * cells * row > 1 << 20 {
        widen_pipe();
    }
    let threads = if principals * cells <= 8192 { 1 } else { workers };
    let job = Job { sh, ordered: Ordered::new(threads + 2), next: AtomicUsize::new(0), principals, cells, threads, row };
    if cells <= job.cells_of(1 << 20) {
        job.small();
    } else {
        job.large(workers);
    }
    job.ordered.release();
    !job.ordered.failed()
}

/// A worker's own things, and those of a principal that it is at.
struct Hands<'a> {
    worker: Worker<'a>,
    table: Table,
    memo: Memo,
    out: Vec<u8>,
}

impl Job<'_> {
    fn cells_of(&self, bytes: usize) -> usize {
        (bytes / self.row).clamp(64, 1 << 16)
    }

    fn hands(&self) -> Hands<'_> {
        Hands { worker: Worker::new(&self.sh), table: Table::new(), memo: self.sh.e.memo(), out: Vec::new() }
    }

    /// The number of the next task, as long as there is one and the output did not fail.
    fn task(&self, tasks: usize) -> Option<usize> {
        if self.ordered.failed() {
            return None;
        }
        Some(self.next.fetch_add(1, Ordering::Relaxed)).filter(|t| *t < tasks)
    }

    /// Hands in piece i of so many; false after a failed write.
    fn hand_in(&self, i: usize, pieces: usize, hands: &mut Hands) -> bool {
        let (json, out) = (self.sh.form.json(), &mut hands.out);
        match (i, json) {
            (0, true) => out[0] = b'[',
            (0, false) => drop(out.splice(0..0, self.sh.head().bytes())),
            _ => {}
        }
        if json && i + 1 == pieces {
            out.extend_from_slice(b"]\n");
        }
        match self.ordered.put(i, std::mem::take(out)) {
            None => false,
            Some(empty) => {
                *out = empty;
                true
            }
        }
    }

    /// Small principals: a task is a run of whole principals.
    fn small(&self) {
        let (e, brief) = (self.sh.e, self.sh.form.brief());
        let group = (self.cells_of(PIECE) / self.cells).max(1);
        let tasks = self.principals.div_ceil(group);
        spawn(self.threads.min(tasks), || {
            let (mut hands, mut st) = (self.hands(), State::default());
            while let Some(i) = self.task(tasks) {
                for p in i * group..self.principals.min(i * group + group) {
                    e.build(p, &mut st, &mut hands.memo, 1, brief);
                    if !brief {
                        hands.table.fill(&self.sh, &st, 0, self.sh.na - 1);
                    }
                    hands.worker.cells(&st, &hands.table, 0, self.cells, &mut hands.out);
                }
                if !self.hand_in(i, tasks, &mut hands) {
                    return;
                }
            }
        });
    }

    /// Large principals: each is built once, some ahead, and cut into pieces.
    fn large(&self, workers: usize) {
        let few = self.principals < 2 * workers;
        let piece = self.cells_of(if !self.sh.form.brief() && few { 1 << 20 } else { PIECE });
        let pieces = self.cells.div_ceil(piece);
        let threads = self.threads.min(self.principals * pieces);
        let made = (0..self.principals).map(|_| Made { left: AtomicUsize::new(pieces), ..Default::default() }).collect();
        let ahead = self.principals.min(if threads == 1 { 1 } else { threads + 1 });
        let inner = if self.principals <= 4 { threads } else { 1 };
        let large = Large { job: self, made, used: Mutex::default(), few, inner, piece, pieces, ahead };
        spawn(threads, || large.work());
    }
}

struct Large<'a> {
    job: &'a Job<'a>,
    made: Vec<Made>,
    used: Mutex<Vec<(State, Table)>>,
    /// Whether the principals are few: then a large table of tails is not made with its principal, and each worker
    /// makes what its own pieces need.
    few: bool,
    /// The threads of one build.
    inner: usize,
    /// The cells of a piece, and the pieces of a principal.
    piece: usize,
    pieces: usize,
    /// How many principals are built ahead.
    ahead: usize,
}

impl Large<'_> {
    /// Tasks: the first builds, then the pieces of principal 0 and a build, those of 1 and a build, ..
    fn work(&self) {
        let (job, k) = (self.job, self.pieces);
        let mut hands = job.hands();
        let full = (job.principals - self.ahead) * (k + 1);
        while let Some(t) = job.task(job.principals * (k + 1)) {
            // A build that was taken is done in any case, since others wait for it.
            if t < self.ahead {
                self.build(t, &mut hands.memo);
                continue;
            }
            let t = t - self.ahead;
            let (p, j) = if t < full { (t / (k + 1), t % (k + 1)) } else { (job.principals - self.ahead + (t - full) / k, (t - full) % k) };
            if j == k {
                self.build(p + self.ahead, &mut hands.memo);
            } else if !self.write(p, j, &mut hands) {
                return;
            }
        }
    }

    fn build(&self, p: usize, memo: &mut Memo) {
        let (sh, brief) = (&self.job.sh, self.job.sh.form.brief());
        let old = self.used.lock().unwrap().pop();
        let (mut st, mut table) = old.unwrap_or_else(|| (State::default(), Table::new()));
        sh.e.build(p, &mut st, memo, self.inner, brief);
        if !brief {
            table.begin(sh, &st);
            if !self.few || table.rows() * st.nrc() <= 1 << 20 {
                table.fill(sh, &st, 0, sh.na - 1);
            }
        }
        *self.made[p].m.lock().unwrap() = Some(Arc::new((st, table)));
        self.made[p].there.notify_all();
    }

    fn wait(&self, p: usize) -> Arc<(State, Table)> {
        let mut g = self.made[p].m.lock().unwrap();
        loop {
            if let Some(it) = &*g {
                return it.clone();
            }
            g = self.made[p].there.wait(g).unwrap();
        }
    }

    /// Writes piece j of principal p; false after a failed write.
    fn write(&self, p: usize, j: usize, hands: &mut Hands) -> bool {
        let (job, it) = (self.job, self.wait(p));
        let (from, to) = (j * self.piece, job.cells.min(j * self.piece + self.piece));
        let alone = !job.sh.form.brief() && !it.1.all;
        if alone {
            hands.table.fill(&job.sh, &it.0, from / job.sh.nr, (to - 1) / job.sh.nr);
        }
        hands.worker.cells(&it.0, if alone { &hands.table } else { &it.1 }, from, to, &mut hands.out);
        drop(it);
        if self.made[p].left.fetch_sub(1, Ordering::AcqRel) == 1 {
            if let Some(x) = self.made[p].m.lock().unwrap().take().and_then(Arc::into_inner) {
                self.used.lock().unwrap().push(x);
            }
        }
        job.hand_in(p * self.pieces + j, job.principals * self.pieces, hands)
    }
}

/// The first allowed cell.
pub fn first(e: &Engine, workers: usize) -> Option<u64> {
    let (np, na, nr) = (e.w.principals.len(), e.w.actions.len(), e.w.resources.len());
    let bound = AtomicU64::new(u64::MAX);
    let next = AtomicUsize::new(0);
    let cells_p = (na * nr) as u64;
    let threads = if np as u64 * cells_p <= 8192 { 1 } else { workers.min(np) };
    let inner = if np <= 2 { workers } else { 1 };
    spawn(threads, || {
        let (mut st, mut memo) = (State::default(), e.memo());
        loop {
            let p = next.fetch_add(1, Ordering::Relaxed);
            if p >= np || p as u64 * cells_p >= bound.load(Ordering::Relaxed) {
                return;
            }
            e.build(p, &mut st, &mut memo, inner, true);
            let nrc = st.nrc();
            let any: Vec<u64> = st.allow.chunks(nrc).map(|c| c.iter().fold(0, |x, y| x | y)).collect();
            for (a, &ac) in e.class_of.iter().enumerate() {
                let (w, b) = (ac as usize / 64, ac % 64);
                if any[w] >> b & 1 == 0 {
                    continue;
                }
                let r = st.rc_of.iter().position(|&rc| st.allow[w * nrc + rc as usize] >> b & 1 == 1).unwrap();
                bound.fetch_min(p as u64 * cells_p + (a * nr + r) as u64, Ordering::Relaxed);
                break;
            }
        }
    });
    match bound.into_inner() {
        u64::MAX => None,
        c => Some(c),
    }
}
