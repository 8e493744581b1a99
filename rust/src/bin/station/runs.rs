//! Calls on templates and their runs.

use crate::end::{refused, wrong, End};
use crate::{files, message};
use station::{report, Answer, Question, Report, Store, Template};
use std::collections::HashSet;
use std::ffi::{OsStr, OsString};

fn template(path: &OsStr) -> End<Template> {
    let bytes = files::template(path)?;
    Template::check(&bytes).or_else(|why| refused(message::refusal(path, &bytes, why)))
}

/// The bytes of a section's name; none selects all.
fn section(arguments: &[OsString]) -> &[u8] {
    arguments.get(2).map_or(b"", |name| name.as_encoded_bytes())
}

/// The refusal of a run, as a message.
fn ended(path: &OsStr, template: &Template, report: &Report) -> End {
    match report.refused() {
        None => Ok(()),
        Some(why) => refused(message::refusal(path, template.as_bytes(), why)),
    }
}

pub fn check(arguments: &[OsString]) -> End {
    template(&arguments[0]).map(|_| ())
}

pub fn print(arguments: &[OsString]) -> End {
    let store = files::store(&arguments[1])?;
    let template = template(&arguments[0])?;
    let report = report(&template, section(arguments), &store);
    files::print(report.text.as_bytes())?;
    ended(&arguments[0], &template, &report)
}

fn answer(store: &Store, question: Question) -> Answer {
    let answer = store.ask(question);
    answer.expect("a read list's questions are within their limits")
}

pub fn reads(arguments: &[OsString]) -> End {
    let store = files::store(&arguments[1])?;
    let template = template(&arguments[0])?;
    let report = report(&template, section(arguments), &store);
    let line = |q: &Question| format!("{q} = {}\n", answer(&store, *q));
    let lines: String = report.reads.iter().map(line).collect();
    files::print(lines.as_bytes())?;
    ended(&arguments[0], &template, &report)
}

/// "s" where there isn't one.
fn plural(count: usize) -> &'static str {
    match count {
        1 => "",
        _ => "s",
    }
}

pub fn reprint(arguments: &[OsString]) -> End {
    let [path, section, before, after] = arguments else {
        unreachable!("four arguments");
    };
    let (before, after) = (files::store(before)?, files::store(after)?);
    let template = template(path)?;
    let section = section.as_encoded_bytes();
    let first = report(&template, section, &before);
    if (1..=6).contains(&first.number()) {
        return ended(path, &template, &first);
    }
    let changed = changed(&first.reads, &before, &after);
    if !changed.is_empty() {
        files::print(changed.concat().as_bytes())?;
        let verb = if changed.len() == 1 {
            "answers"
        } else {
            "answer"
        };
        return refused(format!(
            "{} question{} on the read list {verb} otherwise: the sheet may be another.",
            changed.len(),
            plural(changed.len())
        ));
    }
    // All answers are as before: the runs agree, by proof. Seen again here, byte by byte.
    if report(&template, section, &after) != first {
        return wrong("station: all answers are as before and the runs differ: this should not be");
    }
    files::print(same(&first).as_bytes())
}

/// The questions that answer otherwise, a line each.
fn changed(reads: &[Question], before: &Store, after: &Store) -> Vec<String> {
    let mut seen = HashSet::new();
    let once = reads.iter().filter(|&&q| seen.insert(q));
    once.filter_map(|&q| {
        let (old, new) = (answer(before, q), answer(after, q));
        (old != new).then(|| format!("{q}: was {old}, is {new}\n"))
    })
    .collect()
}

fn same(report: &Report) -> String {
    let (asked, bytes, pages) = (report.reads.len(), report.text.len(), report.pages);
    let end = match report.refused() {
        None => String::new(),
        Some(why) => format!(" Both runs are refused, {why}"),
    };
    format!(
        "The sheet is the same: {asked} question{} on the read list, all answered as before; {bytes} bytes on {pages} page{}.{end}\n",
        plural(asked),
        plural(pages as usize)
    )
}
