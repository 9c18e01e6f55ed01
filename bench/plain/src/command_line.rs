//! The words of the command line.

pub const HELP: &str = "Simulates AWS IAM policies over a world that comes on standard input

Usage: plain <COMMAND>

Commands:
  check                     Read the world and print its counts
  decide <P> <A> <R>        Print the verdict of one cell
  matrix                    Print the verdicts of all cells
  first                     Print the first allowed cell
  ask                       Print the verdicts of the requests of a file
  help                      Print this message

Options of matrix, first and ask:
      --workers <N>         Number of workers, 1 to 64 [default: 4]
      --tile <N>            Cells of a tile [default: the cells by 256]
Options of ask:
      --requests <FILE>     The requests, one a line
Options of matrix and ask:
      --format <csv|json>   Form of the report [default: csv]
      --brief               Leave statements and lacks out
  -h, --help                Print help
";

pub enum Task {
    Check,
    Decide(u64, u64, u64),
    Matrix,
    First,
    Ask,
}

pub struct Options {
    pub task: Task,
    pub workers: u32,
    pub tile: Option<u64>,
    pub json: bool,
    pub brief: bool,
    pub requests: String,
}

pub enum Usage {
    Help,
    Refused(String),
}

/// What the words ask for.
pub fn options_of(words: &[String]) -> Result<Options, Usage> {
    let Some((name, rest)) = words.split_first() else {
        return refused("no command".into());
    };
    let mut o = Options { task: Task::Check, workers: 4, tile: None, json: false, brief: false, requests: String::new() };
    let known: &[&str] = match name.as_str() {
        "-h" | "--help" | "help" => return Err(Usage::Help),
        "check" | "decide" => &[],
        "matrix" => &["--workers", "--tile", "--format", "--brief"],
        "first" => &["--workers", "--tile"],
        "ask" => &["--workers", "--tile", "--format", "--brief", "--requests"],
        _ => return refused(format!("unrecognized command or argument '{name}'")),
    };
    let numbers = flags(rest, known, &mut o)?;
    o.task = match (name.as_str(), &numbers[..]) {
        ("check", []) => Task::Check,
        ("matrix", []) => Task::Matrix,
        ("first", []) => Task::First,
        ("ask", []) if !o.requests.is_empty() => Task::Ask,
        ("decide", [p, a, r]) => Task::Decide(number(p)?, number(a)?, number(r)?),
        _ => return refused("wrong number of arguments".into()),
    };
    Ok(o)
}

fn refused<T>(why: String) -> Result<T, Usage> {
    Err(Usage::Refused(why))
}

fn number<T: std::str::FromStr>(text: &str) -> Result<T, Usage> {
    text.parse().or_else(|_| refused(format!("invalid value '{text}'")))
}

/// Reads the options that the command knows; the other words are given back.
fn flags<'w>(words: &'w [String], known: &[&str], o: &mut Options) -> Result<Vec<&'w str>, Usage> {
    let (mut seen, mut others) = (Vec::new(), Vec::new());
    let mut words = words.iter().map(|w| w.as_str());
    while let Some(word) = words.next() {
        if word == "--" {
            others.extend(words);
            break;
        }
        if !word.starts_with('-') || word == "-" {
            others.push(word);
            continue;
        }
        let (flag, value) = word.split_once('=').map_or((word, None), |(flag, value)| (flag, Some(value)));
        if matches!(flag, "-h" | "--help") {
            return Err(Usage::Help);
        }
        if !known.contains(&flag) || seen.contains(&flag) {
            return refused(format!("unexpected argument '{word}'"));
        }
        seen.push(flag);
        if flag == "--brief" && value.is_none() {
            o.brief = true;
            continue;
        }
        match value.or_else(|| words.next().filter(|it| !it.starts_with('-'))) {
            Some(value) => set(flag, value, o)?,
            None => return refused(format!("a value is required for '{flag}'")),
        }
    }
    Ok(others)
}

fn set(flag: &str, value: &str, o: &mut Options) -> Result<(), Usage> {
    match (flag, value) {
        ("--workers", _) => o.workers = number(value)?,
        ("--tile", _) => o.tile = Some(number(value)?),
        ("--requests", _) => o.requests = value.into(),
        ("--format", "csv") => o.json = false,
        ("--format", "json") => o.json = true,
        _ => return refused(format!("invalid value '{value}' for '{flag}'")),
    }
    Ok(())
}
