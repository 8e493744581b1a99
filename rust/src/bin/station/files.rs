//! Files: read whole within their limits, written whole or not at all.

use crate::end::{wrong, End};
use station::{Store, STORE_BYTES, TEMPLATE_BYTES};
use std::ffi::OsStr;
use std::fs::{self, File, Metadata, OpenOptions};
use std::io::{self, Read, Write};
use std::path::{Path, PathBuf};

/// The most bytes of a text form: far more than a store needs.
const TEXT_FORM_BYTES: usize = 16 << 20;

fn told<T>(path: &OsStr, result: io::Result<T>) -> End<T> {
    result.or_else(|error| wrong(format!("station: {}: {error}", path.display())))
}

/// The bytes of a file that has at most so many.
fn read(path: &OsStr, most: usize, what: &str) -> End<Vec<u8>> {
    let file = told(path, File::open(path))?;
    let mut bytes = Vec::new();
    told(path, file.take(most as u64 + 1).read_to_end(&mut bytes))?;
    match bytes.len() > most {
        true => wrong(format!(
            "station: {}: too long: {what} has at most {most} bytes",
            path.display()
        )),
        false => Ok(bytes),
    }
}

pub fn template(path: &OsStr) -> End<Vec<u8>> {
    read(path, TEMPLATE_BYTES, "a template")
}

pub fn store(path: &OsStr) -> End<Store> {
    let bytes = read(path, STORE_BYTES, "a store")?;
    Store::from_bytes(&bytes).or_else(|refusal| {
        wrong(format!(
            "station: {}: not a store: {}: {refusal}",
            path.display(),
            refusal.number()
        ))
    })
}

pub fn store_text(path: &OsStr) -> End<Store> {
    let bytes = read(path, TEXT_FORM_BYTES, "the text form of a store")?;
    let shown = path.display();
    let Ok(text) = String::from_utf8(bytes) else {
        return wrong(format!("station: {shown}: not the text form of a store"));
    };
    let store = Store::from_text(&text);
    store.or_else(|error| wrong(format!("station: {shown}:{}: {}", error.line, error.why)))
}

/// A name beside a file that no other run of this program uses.
fn beside(path: &Path) -> PathBuf {
    let mut name = path.as_os_str().to_owned();
    name.push(format!(".{}.new", std::process::id()));
    PathBuf::from(name)
}

/// Writes a new file and gives it the old one's name, so that at every moment one of both is there whole.
pub fn write(path: &OsStr, bytes: &[u8]) -> End {
    // A link stays a link: what it leads to is replaced.
    let target = fs::canonicalize(path).unwrap_or_else(|_| PathBuf::from(path));
    let new = beside(&target);
    let written = replace(&target, &new, bytes);
    if written.is_err() {
        let _ = fs::remove_file(&new);
    }
    told(path, written)
}

fn replace(target: &Path, new: &Path, bytes: &[u8]) -> io::Result<()> {
    let old = fs::metadata(target).ok();
    if let Some(old) = &old {
        replaceable(old)?;
    }
    let mut file = OpenOptions::new().write(true).create_new(true).open(new)?;
    file.write_all(bytes)?;
    if let Some(old) = old {
        file.set_permissions(old.permissions())?;
    }
    file.sync_all()?;
    fs::rename(new, target)
}

/// A renaming would replace a device too, and a file that may not be written.
fn replaceable(old: &Metadata) -> io::Result<()> {
    if !old.is_file() {
        return Err(io::Error::other("not a file that can be replaced"));
    }
    match old.permissions().readonly() {
        true => Err(io::ErrorKind::PermissionDenied.into()),
        false => Ok(()),
    }
}

/// Standard output.
pub fn print(bytes: &[u8]) -> End {
    let mut out = io::stdout().lock();
    let printed = out.write_all(bytes).and_then(|()| out.flush());
    told(OsStr::new("standard output"), printed)
}
