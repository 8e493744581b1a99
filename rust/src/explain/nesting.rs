//! Check 4: what is open, and since which line.

use super::Explanation;

/// A test or table that is open; lines count from 1 here.
struct Open {
    word: String,
    line: usize,
    table: bool,
    /// The line of its $ELSE.
    otherwise: Option<usize>,
}

fn word(line: &[u8]) -> String {
    let end = line.iter().position(|&b| b == b' ').unwrap_or(line.len());
    String::from_utf8_lossy(&line[..end]).into_owned()
}

/// What is wrong at a line of a template whose lines have their forms.
pub fn fault(lines: &[&[u8]], at: usize) -> Option<Explanation> {
    let mut open: Vec<Open> = Vec::new();
    let mut section = false;
    for (before, line) in lines[..=at].iter().enumerate() {
        let word = match line.starts_with(b"$") {
            true => word(line),
            false => String::new(),
        };
        section |= word == "$SEC";
        let what = match section || word == "$REM" {
            true => step(&mut open, &word, before + 1),
            false => Some("no $SEC stands before this line, which isn't a $REM".to_owned()),
        };
        if before == at {
            let what = what.or_else(|| left(&open, "the last line"))?;
            let to = if word.is_empty() {
                line.len()
            } else {
                word.len()
            };
            let explanation = Explanation::between(0, to, what);
            return Some(open.iter().fold(explanation, |e, o| e.note(o.said())));
        }
    }
    None
}

impl Open {
    fn said(&self) -> String {
        let otherwise = match self.otherwise {
            Some(line) => format!(", its $ELSE is line {line}"),
            None => String::new(),
        };
        format!("open: {} since line {}{otherwise}", self.word, self.line)
    }
}

fn left(open: &[Open], place: &str) -> Option<String> {
    let last = open.last()?;
    Some(format!(
        "{} of line {} is open at {place}",
        last.word, last.line
    ))
}

/// Opens and closes what a line opens and closes, or says why it can't.
fn step(open: &mut Vec<Open>, word: &str, line: usize) -> Option<String> {
    let table = word == "$BT";
    match word {
        "$SEC" => left(open, "the next $SEC"),
        "$ELSE" => match open.last_mut() {
            Some(o) if !o.table && o.otherwise.is_none() => {
                o.otherwise = Some(line);
                None
            }
            Some(o) if !o.table => Some(format!("{} of line {} has an $ELSE", o.word, o.line)),
            _ => Some(closes(open, "test")),
        },
        "$ENDIF" | "$ET" => match open.last() {
            Some(o) if o.table == (word == "$ET") => {
                open.pop();
                None
            }
            _ => Some(closes(open, if word == "$ET" { "table" } else { "test" })),
        },
        _ if table || word.starts_with("$IF") => {
            let (most, name) = if table { (5, "tables") } else { (10, "tests") };
            if open.iter().filter(|o| o.table == table).count() == most {
                return Some(format!("{most} {name} are open, and no more may be"));
            }
            open.push(Open {
                word: word.to_owned(),
                line,
                table,
                otherwise: None,
            });
            None
        }
        _ => None,
    }
}

/// Why nothing of a kind can be closed.
fn closes(open: &[Open], kind: &str) -> String {
    match open.last() {
        Some(o) => format!("{} of line {} is open, and closes first", o.word, o.line),
        None => format!("no {kind} is open"),
    }
}
