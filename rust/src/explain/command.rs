//! Check 3: where a command loses its form.

use super::argument::{Read, Reader, INDEX};
use super::Explanation;

const WORDS: &str = "allowed: $SEC, $SETE, $SETA, $SETS, $SETM, $SETD, $IF, $IFNOT, $IFEQ, $IFNE, $IFLT, $IFLE, $IFGT, $IFGE, $IFEQSS, $IFEQSI, $ELSE, $ENDIF, $BT, $ET, $REC, $TBL, $SETDS, $NOFF, $NP, $PHn, $REM";

/// What keeps a line from having a form; none where it has one.
pub fn fault(line: &[u8]) -> Option<Explanation> {
    let mut reader = Reader { line, at: 0 };
    let read = match line.starts_with(b"$") {
        true => reader.command(),
        false => reader.text(0),
    };
    read.err()
}

impl Reader<'_> {
    fn command(&mut self) -> Read {
        let end = self.line.iter().position(|&b| b == b' ');
        self.at = end.unwrap_or(self.line.len());
        let word = self.line[..self.at].to_vec();
        match word.as_slice() {
            b"$REM" => return Ok(()),
            _ if word.starts_with(b"$PH") => return self.heading(&word),
            b"$SEC" => return self.section(),
            b"$SETE" => self.set(true)?,
            b"$SETA" | b"$SETS" | b"$SETM" | b"$SETD" => self.set(false)?,
            b"$ELSE" | b"$ENDIF" | b"$NOFF" => {}
            b"$IF" | b"$IFNOT" | b"$BT" => self.value()?,
            b"$ET" | b"$NP" if self.at_end() => {}
            b"$ET" | b"$NP" => self.value()?,
            b"$IFEQ" | b"$IFNE" | b"$IFLT" | b"$IFLE" | b"$IFGT" | b"$IFGE" | b"$IFEQSS"
            | b"$IFEQSI" => {
                self.value()?;
                self.value()?;
            }
            b"$REC" | b"$TBL" => self.fill()?,
            b"$SETDS" => {
                self.space("an index")?;
                self.index()?;
            }
            _ => {
                let what = format!("unknown word {}", String::from_utf8_lossy(&word));
                return Err(Explanation::between(0, word.len(), what).note(WORDS));
            }
        }
        match self.at_end() {
            true => Ok(()),
            false => {
                let what = "something behind the last argument";
                let note = "allowed: the line's end";
                Err(Explanation::between(self.at, self.line.len(), what).note(note))
            }
        }
    }

    fn value(&mut self) -> Read {
        self.space("an argument")?;
        self.argument()
    }

    fn section(&mut self) -> Read {
        let note = "allowed: 1–16 of A–Z, 0–9";
        self.space("a name").map_err(|e| e.note(note))?;
        let name = self.rest();
        let other = name
            .iter()
            .position(|b| !b.is_ascii_uppercase() && !b.is_ascii_digit());
        let (from, end) = (self.at, self.line.len());
        match other {
            Some(other) => {
                let at = from + other;
                Err(Explanation::between(at, at + 1, "a name hasn't this character").note(note))
            }
            None if name.is_empty() => Err(self.due("a name").note(note)),
            None if name.len() > 16 => {
                let what = format!("a name of {} characters", name.len());
                Err(Explanation::between(from, end, what).note(note))
            }
            None => Ok(()),
        }
    }

    fn set(&mut self, strings: bool) -> Read {
        let note = match strings {
            true => "allowed: IVn, FVn, SVn (n 1–99)",
            false => "allowed: IVn, FVn (n 1–99); SVn behind $SETE alone",
        };
        self.space("a variable").map_err(|e| e.note(note))?;
        let from = self.at;
        let string = self.rest().starts_with(b"SV");
        if !self.variable_word() || (string && !strings) {
            let what = match self.at == self.line.len() {
                true => self.due("a variable"),
                false => self.word_fault(from, "this is no variable that the command sets"),
            };
            return Err(what.note(note));
        }
        self.plain(from, &self.named(from), 99)?;
        if self.eat(b"|") {
            let what = "a variable that is set takes no filter";
            let mut fault = self.word_fault(self.at, what);
            fault.column -= 1;
            fault.width += 1;
            return Err(fault);
        }
        self.value()
    }

    fn fill(&mut self) -> Read {
        self.space("a number 1–10")?;
        let from = self.at;
        self.plain(from, "n", 10)?;
        self.space("a parameter Pm")?;
        let from = self.at;
        if !self.eat(b"P") {
            return Err(self.word_fault(from, "a parameter Pm is due here"));
        }
        self.plain(from, "m of Pm", 65_535)?;
        for index in ["a record", "an entry", "a count"] {
            self.space(index).map_err(|e| e.note(INDEX))?;
            self.index()?;
        }
        Ok(())
    }

    fn heading(&mut self, word: &[u8]) -> Read {
        match &word[3..] {
            [] | [b'1'..=b'9'] => {}
            _ => {
                let what = "n of $PHn is 1–9";
                return Err(Explanation::between(0, word.len(), what).note("$PH is $PH1"));
            }
        }
        match self.eat(b" ") {
            true => self.text(word.len() + 1),
            false => Ok(()),
        }
    }
}
