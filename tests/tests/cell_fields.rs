//! Fields of cells beside the second interpreter. A cell without entry and filter before a comma is read at once, any other argument by
//! the general reader: here both stand in one line, in every way that the first could be taken for the second or the second for the first.

use second::{Report, Value};
use station_tests::report::{Call, Pair};
use station_tests::store::cell;

const ROOM: usize = 65_536;
const PLACES: usize = 4_096;

/// Cells of every kind in parameters 1, 12, 6553 and 65535, with and without records and entries.
fn store() -> Vec<u8> {
    let mut store = Vec::new();
    for (n, parameter) in [1, 12, 6_553, 65_535].into_iter().enumerate() {
        let n = n as i64;
        store.extend(cell([1, parameter, 0, 0], &Value::Integer(7 - 10 * n)));
        store.extend(cell([1, parameter, 0, 1], &Value::Integer(100 + n)));
        store.extend(cell([1, parameter, 1, 0], &Value::Decimal(1_234_567 - 5_000_000 * n)));
        store.extend(cell([1, parameter, 2, 0], &Value::String(b"Cs-137".to_vec())));
        store.extend(cell([1, parameter, 999, 999], &Value::Integer(-n)));
    }
    store
}

fn report(pair: &mut Pair, template: &str, places: usize) -> Report {
    let store = store();
    let call = Call {
        template: template.as_bytes(),
        section: b"A",
        buffer: &store,
        length: store.len(),
    };
    pair.report(call, ROOM, places)
}

const CELLS: [&str; 22] = [
    "P1", "P12", "P6553", "P65535", "P65536", "P0", "P01", "P", "PAGENUM", "P1.0", "P1.1", "P1.002", "P1.0001", "P12.IV1", "P12.IV100",
    "P12.LOOP", "P1.", "P1.LOO", "P1.IV", "P1.999.999", "P1.LOOP.IV1", "P2",
];
const FILTERS: [&str; 6] = ["", "|ABS", "|LEN", "|RECCNT", "|ENTCNT", "|"];
const WIDTHS: [&str; 12] = [
    ",1", ",9", ",32", ",33", ",0", ",09", "", ",9.0", ",9.2", ",9.6", ",9.7", ",9.",
];

#[test]
fn every_cell_filter_and_width() {
    let mut pair = Pair::new(ROOM, PLACES);
    let mut printed = 0;
    for cell in CELLS {
        for filter in FILTERS {
            for width in WIDTHS {
                let field = format!("{{{cell}{filter}{width}}}");
                let template = format!("$SEC A\n$SETE IV1 1\n$BT 3\n<{field}>{{P1,3}}\n$ET\n");
                printed += usize::from(report(&mut pair, &template, PLACES).number == 0);
            }
        }
    }
    assert!(printed > 100, "{printed} of the templates are printed");
}

/// 8 and 9 come in turn, field by field: an index that is too high, and a read list that ends before, at and behind each field.
#[test]
fn refusals_between_fields() {
    let mut pair = Pair::new(ROOM, PLACES);
    for line in [
        "{P1,3}{P1.IV1,3}{P12.1,9.2}",
        "{P1.IV1,3}{P1,3}",
        "{P1.1|ABS,9}{P12,3}{P1.0.1,3}{P1.IV1,3}{P1,3}",
        "{P1.LOOP,9}{P1.LOOP.1,9}{P1|RECCNT,3}{P12.LOOP,9.1}",
    ] {
        for index in [-1, 0, 2, 999, 1_000] {
            for places in 0..6 {
                let template = format!("$SEC A\n$SETE IV1 {index}\n$BT 2\n{line}\n$ET\n");
                report(&mut pair, &template, places);
            }
        }
    }
}

/// In headings too, which are worked out at the moment they are printed.
#[test]
fn fields_of_headings() {
    let mut pair = Pair::new(ROOM, PLACES);
    let template = "$SEC A\n$PH1 {P1.LOOP,9.3}{P12,4}{P1.2,8}{PAGENUM,3}\n$BT 130\n{P1.LOOP,9}{P12.1,9.1}\n$ET\n";
    let end = report(&mut pair, template, PLACES);
    assert_eq!((end.number, end.pages), (0, 3));
}
