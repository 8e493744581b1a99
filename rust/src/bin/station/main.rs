//! The program `station`: prints and checks templates, lists what a run reads, says whether a reprint is the same sheet, and
//! keeps stores in text form.
#![forbid(unsafe_code)]

mod end;
mod files;
mod message;
mod runs;
mod stores;

use end::{wrong, End};
use std::env;
use std::ffi::OsString;
use std::io::{self, Write};
use std::process::ExitCode;

/// A call: its words, what it takes, what it does, and with how many arguments.
struct Call {
    words: &'static [&'static str],
    takes: &'static str,
    does: &'static str,
    least: usize,
    most: usize,
    run: fn(&[OsString]) -> End,
}

const ANY: usize = usize::MAX;

const CALLS: [Call; 9] = [
    Call {
        words: &["print"],
        takes: "TEMPLATE STORE [SECTION]",
        does: "prints the sheet; without a SECTION, all of them",
        least: 2,
        most: 3,
        run: runs::print,
    },
    Call {
        words: &["check"],
        takes: "TEMPLATE",
        does: "says what is wrong with a template, and where",
        least: 1,
        most: 1,
        run: runs::check,
    },
    Call {
        words: &["reads"],
        takes: "TEMPLATE STORE [SECTION]",
        does: "lists the questions that a run asks, with their answers",
        least: 2,
        most: 3,
        run: runs::reads,
    },
    Call {
        words: &["reprint"],
        takes: "TEMPLATE SECTION BEFORE AFTER",
        does: "says whether the sheet of store BEFORE is that of store AFTER; '' is all sections",
        least: 4,
        most: 4,
        run: runs::reprint,
    },
    Call {
        words: &["store", "make"],
        takes: "TEXT STORE",
        does: "makes a store from its text form",
        least: 2,
        most: 2,
        run: stores::make,
    },
    Call {
        words: &["store", "show"],
        takes: "STORE",
        does: "prints the text form of a store",
        least: 1,
        most: 1,
        run: stores::show,
    },
    Call {
        words: &["store", "ask"],
        takes: "STORE QUESTION [in datasource N]",
        does: "answers Pn, Pn.r, Pn.r.e, Pn|RECCNT or Pn.r|ENTCNT",
        least: 2,
        most: 5,
        run: stores::ask,
    },
    Call {
        words: &["store", "put"],
        takes: "STORE DATASOURCE PARAMETER RECORD ENTRY KIND VALUE",
        does: "adds or replaces a cell; KIND is I, F or S",
        least: 2,
        most: ANY,
        run: stores::put,
    },
    Call {
        words: &["store", "remove"],
        takes: "STORE DATASOURCE PARAMETER RECORD ENTRY",
        does: "takes out a cell",
        least: 2,
        most: 5,
        run: stores::remove,
    },
];

const STATUS: &str = "\
Exit status: 0 for a success (reprint: all answers are as before), 1 for a refusal or a changed answer,
2 for a file that can't be read, written or used, and for a call that isn't one of these.
";

impl Call {
    fn usage(&self) -> String {
        format!("station {} {}", self.words.join(" "), self.takes)
    }
}

fn help() -> String {
    let mut text = String::from("usage:\n");
    for call in &CALLS {
        text += &format!("  {}\n      {}\n", call.usage(), call.does);
    }
    text + STATUS
}

/// The call that some arguments name, and what is left for it.
fn find(arguments: &[OsString]) -> Option<(&'static Call, &[OsString])> {
    CALLS.iter().find_map(|call| {
        let words = call.words.len();
        let named = arguments.get(..words)? == call.words;
        named.then(|| (call, &arguments[words..]))
    })
}

fn run(arguments: &[OsString]) -> End {
    let asks_help = |a: &OsString| a == "--help" || a == "-h";
    let Some((call, rest)) = find(arguments) else {
        return match arguments.iter().any(asks_help) {
            true => files::print(help().as_bytes()),
            false => wrong(help().trim_end()),
        };
    };
    if rest.first().is_some_and(asks_help) {
        let text = format!("usage: {}\n{}\n{STATUS}", call.usage(), call.does);
        return files::print(text.as_bytes());
    }
    if !(call.least..=call.most).contains(&rest.len()) {
        return wrong(format!("usage: {}", call.usage()));
    }
    (call.run)(rest)
}

fn main() -> ExitCode {
    let arguments: Vec<OsString> = env::args_os().skip(1).collect();
    let status = match run(&arguments) {
        Ok(()) => 0,
        Err(fault) => {
            // Where nobody listens, the status still says it.
            let _ = writeln!(io::stderr(), "{}", fault.message);
            fault.status
        }
    };
    ExitCode::from(status)
}
