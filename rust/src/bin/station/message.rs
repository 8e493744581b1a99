//! Messages on templates, in rustc's manner.

use station::{Explanation, Refused};
use std::ffi::OsStr;

/// A line of a template as it is shown: bytes that can't be are question marks.
fn shown(template: &[u8], number: u32) -> Option<String> {
    let before = (number as usize).checked_sub(1)?;
    let line = template.split(|&byte| byte == b'\n').nth(before)?;
    let seen = |&byte: &u8| match byte {
        0x20..=0x7e => char::from(byte),
        _ => '?',
    };
    Some(line.iter().map(seen).collect())
}

/// A refusal of a template: the number and document 01's words, where it is, the line itself, and why where that is known.
pub fn refusal(path: &OsStr, template: &[u8], refused: Refused) -> String {
    let why = Explanation::of(template, refused);
    let mut text = format!("error[{}]: {}", refused.refusal.number(), refused.refusal);
    let path = path.display();
    let Some(line) = shown(template, refused.line) else {
        return text + &format!("\n --> {path}");
    };
    let number = refused.line.to_string();
    let margin = " ".repeat(number.len());
    let column = match &why {
        Some(why) => format!(":{}", why.column),
        None => String::new(),
    };
    text += &format!("\n{margin}--> {path}:{number}{column}\n{margin} |\n{number} | {line}");
    let Some(why) = why else {
        return text;
    };
    let (skip, mark) = (" ".repeat(why.column - 1), "^".repeat(why.width));
    text += &format!("\n{margin} | {skip}{mark} {}", why.what);
    for note in &why.notes {
        text += &format!("\n{margin} = {note}");
    }
    text
}
