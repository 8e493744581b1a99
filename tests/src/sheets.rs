//! The shipped template and store, and small sheets, each with what one part of a run needs.

use crate::store::cell;
use second::Value;

pub const TEMPLATE: &[u8] = include_bytes!("../../examples/activity/template");
pub const STORE: &[u8] = include_bytes!("../../examples/activity/store");

/// The sheet of document 01.
pub const PAPER: &[u8] = include_bytes!("../../crates/sheet/data/template");

/// A template, the name of a section and a store.
pub struct Sheet {
    pub template: Vec<u8>,
    pub section: &'static [u8],
    pub store: Vec<u8>,
}

/// A store with integers, decimals and strings under parameters 1, 2 and 3 of datasources 1 and 2.
pub fn small_store() -> Vec<u8> {
    let mut bytes = Vec::new();
    for datasource in 1..=2 {
        for parameter in 1..=3 {
            for record in 0..=4 {
                for entry in 0..=2 {
                    let n = i64::from(record) * 7 - i64::from(entry);
                    let value = match parameter {
                        1 => Value::Integer(n),
                        2 => Value::Decimal(n * 1_250_001),
                        _ => Value::String(format!("Cs-{n}").into_bytes()),
                    };
                    bytes.extend(cell([datasource, parameter, record, entry], &value));
                }
            }
        }
    }
    bytes
}

/// Sheets that end in success, with pages, headings, tables, questions of each kind, strings and form feeds.
pub fn sheets() -> Vec<Sheet> {
    let small = [
        "$SEC A\n$BT 130\n{LOOP,4} {PAGENUM,2} {LINENUM,2}\n$ET\n",
        "$SEC A\n$PH1 head {PAGENUM,3} {P3.1,8}\n$PH3 third {P1.2,4}\n$BT 70\n{P2.LOOP,3}\n$NP 50\n$ET 7\n",
        "$SEC A\n$NOFF\n$PH \n$BT 64\nx\n$ET\n$NP\ny\n",
        "$SEC A\n$REC 1 P1 0 0 5\n$TBL 2 P2 3 0 3\n$BT 6\n{R1,5} {T2,9.3} {R1|ABS,4} {T2|INT,3}\n$ET\n",
        "$SEC A\n$SETE IV1 P1|RECCNT\n$BT IV1\n$SETE IV2 P3.LOOP|ENTCNT\n{P3.LOOP.IV2,6}{P3.LOOP.IV2|UPPER,6}{P3.LOOP|LEN,3}\n$ET\n",
        "$SEC A\n$SETDS 2\n{P1.1,4}\n$SEC B\n{P1.1,4}\n$SETDS 1\n{P2.4.2,12}\n$NP\n$NP\nend\n",
        "$SEC A\n$SETE SV1 P3.1\n$BT 4\n$IFEQSI SV1 P3.LOOP\n{SV1,4} is {P3.LOOP,3}\n$ELSE\n{P9.LOOP,4} {LOOP,1}\n$ENDIF\n$ET\n",
        "$SEC A\n$SETE FV1 1\n$BT 9\n$SETM FV1 1.5\n$SETD FV1 0.7\n$SETA FV2 FV1\n{FV1,12} {FV2,12.2} {FV2,5.0}\n$ET\n",
        "$SEC A\n\n \n$PH9 nine\n$NP 61\n{\"}{\",2}|{-0.4,3.0}|{1234,3}|{P8,5}\n",
    ];
    let mut sheets: Vec<Sheet> = small
        .iter()
        .map(|t| Sheet {
            template: t.as_bytes().to_vec(),
            section: b"",
            store: small_store(),
        })
        .collect();
    sheets.extend([&b"SHEET"[..], b"LIST", b""].map(|section| Sheet {
        template: TEMPLATE.to_vec(),
        section,
        store: STORE.to_vec(),
    }));
    sheets
}
