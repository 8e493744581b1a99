//! Every example of docs/MANUAL.md by the second interpreter beside the library.

#[path = "../../rust/tests/common/manual.rs"]
mod manual;

use manual::examples;
use station::Store;
use station_tests::report::{Call, Pair};

#[test]
fn both_interpreters_print_what_is_shown() {
    let (room, places) = (65_536, 4_096);
    let mut pair = Pair::new(room, places);
    for example in examples() {
        let store = Store::from_text(&example.store).unwrap();
        let call = Call {
            template: example.template.as_bytes(),
            section: example.section.as_bytes(),
            buffer: store.as_bytes(),
            length: store.as_bytes().len(),
        };
        let end = pair.report(call, room, places);
        let shown = (example.number, example.line);
        assert_eq!((end.number, end.line), shown, "line {}", example.place);
        if let Some(sheet) = &example.sheet {
            assert_eq!(pair.text(&end), sheet.as_bytes(), "line {}", example.place);
        }
    }
}
