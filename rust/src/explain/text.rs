//! Check 3: where a text or its width loses its form.

use super::argument::{value, Read, Reader};
use super::Explanation;

const FIELD: &str = "allowed: {argument,w} or {argument,w.d}";

impl Reader<'_> {
    /// Text from this place on; `before` bytes of the line count before it.
    pub fn text(&mut self, before: usize) -> Read {
        let mut width = before;
        let mut passed = None;
        while !self.at_end() {
            let from = self.at;
            width += match self.rest()[0] {
                b'{' => self.field()?,
                b'}' => {
                    let what = "a closing brace outside a field";
                    return Err(Explanation::between(from, from + 1, what).note(FIELD));
                }
                _ => {
                    self.at += 1;
                    1
                }
            };
            if width > 132 {
                passed.get_or_insert((from, self.at));
            }
        }
        match passed {
            None => Ok(()),
            Some((from, to)) => {
                let what = format!("with its fields at their widths the line has {width} bytes");
                let note = "allowed: 132, a command word included; here the line passes them";
                Err(Explanation::between(from, to, what).note(note))
            }
        }
    }

    /// The width of a field.
    fn field(&mut self) -> Read<usize> {
        let open = self.at;
        self.eat(b"{");
        self.argument().map_err(|e| match e.notes.is_empty() {
            true => e.note(FIELD),
            false => e,
        })?;
        if !self.eat(b",") {
            return Err(self.unclosed(open, "a comma and the width"));
        }
        let from = self.at;
        let width = value(self.digits());
        let leading = self.line.get(from) == Some(&b'0');
        let Some(w @ 1..=32) = width.filter(|_| !leading) else {
            return Err(self
                .word_fault(from, "a field's width w is 1–32")
                .note(FIELD));
        };
        if self.eat(b".") {
            let from = self.at;
            let digits = self.digits();
            if !matches!(digits, [b'0'..=b'6']) {
                return Err(self
                    .word_fault(from, "a field's places d are 0–6")
                    .note(FIELD));
            }
        }
        match self.eat(b"}") {
            true => Ok(w as usize),
            false => Err(self.unclosed(open, "the closing brace")),
        }
    }

    fn unclosed(&self, open: usize, due: &str) -> Explanation {
        let opened = format!("the field begins in column {}", open + 1);
        self.due(due).note(opened).note(FIELD)
    }
}
