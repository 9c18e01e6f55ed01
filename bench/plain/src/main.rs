//! Simulates AWS IAM policies: a world of policy documents on standard input,
//! the access matrix (or one cell of it, or the first allowed one) on standard output.
mod arena;
mod ask;
mod bits;
mod command_line;
mod decide;
mod document;
mod draft;
mod engine;
mod entry;
mod grammar;
mod hashing;
mod json;
mod keys;
mod output;
mod pattern;
mod reading;
mod report;
mod threads;
mod values;
mod world;

use command_line::{options_of, Options, Task, Usage, HELP};
use engine::Engine;
use report::Form;
use std::io::{Read, Write};
use std::mem::ManuallyDrop;
use std::os::fd::FromRawFd;
use world::World;

fn main() {
    let words: Vec<String> = std::env::args_os().skip(1).map(|w| w.to_string_lossy().into_owned()).collect();
    let code = match options_of(&words) {
        Err(Usage::Help) => {
            let _ = output::stdout().write_all(HELP.as_bytes());
            0
        }
        Err(Usage::Refused(why)) => {
            eprintln!("error: {why}\n\nFor more information, try '--help'.");
            2
        }
        Ok(o) => match run(&o) {
            Ok(status) => status,
            Err(line) => {
                eprintln!("fault {line}");
                1
            }
        },
    };
    // Nothing is freed: the process ends here.
    std::process::exit(code)
}

fn put(bytes: &[u8]) -> Result<(), String> {
    output::stdout().write_all(bytes).map_err(|_| "4 Write".to_string())
}

/// What is read of standard input: one byte more than a world may have.
fn input() -> Result<&'static [u8], String> {
    let most = reading::MAX_BYTES as u64 + 1;
    // SAFETY: descriptor 0 is only read from and never closed here.
    let stdin = ManuallyDrop::new(unsafe { std::fs::File::from_raw_fd(0) });
    let size = stdin.metadata().map(|m| m.len()).unwrap_or(0).min(most) as usize;
    let mut bytes = Vec::with_capacity(size + 1);
    (&*stdin).take(most).read_to_end(&mut bytes).map_err(|_| "1 Read")?;
    Ok(Vec::leak(bytes))
}

/// Does what the options ask for, and gives the status, or the rest of a fault's line.
fn run(o: &Options) -> Result<i32, String> {
    let w = reading::read(input()?).map_err(|f| format!("2 World: {f}"))?;
    match o.task {
        Task::Check => check(w)?,
        Task::Decide(x, y, z) => decide_one(w, x, y, z)?,
        Task::Ask => return ask_all(w, o),
        Task::Matrix | Task::First => {
            lawful(o, w.cells())?;
            match o.task {
                Task::First => first(w, o.workers as usize)?,
                _ => matrix(w, form_of(o), o.workers as usize)?,
            }
        }
    }
    Ok(0)
}

/// The status is 4 where there is no request.
fn ask_all(mut w: World, o: &Options) -> Result<i32, String> {
    let (text, some) = ask::report(&mut w, ask::bytes_of(&o.requests)?, form_of(o), |count| lawful(o, count))?;
    put(&text)?;
    Ok(if some { 0 } else { 4 })
}

fn check(w: World) -> Result<(), String> {
    let (p, a, r, s) = (w.principals.len(), w.actions.len(), w.resources.len(), w.statements.len());
    let cells = w.cells();
    std::mem::forget(w);
    put(format!("ok principals {p} actions {a} resources {r} cells {cells} statements {s}\n").as_bytes())
}

fn decide_one(mut w: World, x: u64, y: u64, z: u64) -> Result<(), String> {
    let (p, a, r) = (w.principals.len(), w.actions.len(), w.resources.len());
    if x >= p as u64 || y >= a as u64 || z >= r as u64 {
        return Err("5 NoSuchCell".into());
    }
    let (x, y, z) = (x as usize, y as usize, z as usize);
    let ground = decide::Ground::of(&w, x, z);
    let matched = decide::plain(&mut w, x, y, z);
    let v = decide::verdict(&w, &ground, &matched);
    let mut out = report::FULL_HEAD.as_bytes().to_vec();
    out.extend(report::csv_row(&w, ((x * a + y) * r + z) as u64, x, y, z, &v));
    put(&out)
}

/// Tests the cut, and then the number of workers.
fn lawful(o: &Options, cells: u64) -> Result<(), String> {
    let tile = o.tile.unwrap_or_else(|| cells.div_ceil(256).max(1));
    if tile == 0 {
        return Err("6 Cut: 1 ZeroTile".into());
    }
    if cells.div_ceil(tile) > 4096 {
        return Err("6 Cut: 3 TooMany".into());
    }
    if o.workers == 0 || o.workers > 64 {
        return Err("3 Matrix: 1 Workers".into());
    }
    Ok(())
}

fn form_of(o: &Options) -> Form {
    match (o.json, o.brief) {
        (false, false) => Form::Csv,
        (false, true) => Form::CsvBrief,
        (true, false) => Form::Json,
        (true, true) => Form::JsonBrief,
    }
}

fn first(w: World, workers: usize) -> Result<(), String> {
    let (a, r) = (w.actions.len(), w.resources.len());
    let mut out = report::BRIEF_HEAD.as_bytes().to_vec();
    if w.cells() > 0 {
        let e = ManuallyDrop::new(Engine::new(w, workers));
        if let Some(c) = report::first(&e, workers) {
            let n = c as usize;
            out.extend(report::csv_start(&e.w, c, n / (a * r), n / r % a, n % r, 1));
            out.push(b'\n');
        }
    }
    put(&out)
}

fn matrix(w: World, form: Form, workers: usize) -> Result<(), String> {
    if w.cells() == 0 {
        return put(match form {
            Form::Csv => report::FULL_HEAD,
            Form::CsvBrief => report::BRIEF_HEAD,
            _ => "[]\n",
        }
        .as_bytes());
    }
    let e = ManuallyDrop::new(Engine::new(w, workers));
    if report::matrix(&e, form, workers) {
        Ok(())
    } else {
        Err("4 Write".into())
    }
}
