//! What station.h says of threads and of the stack: calls at the same time, each on a stack of 64 KB and what a thread itself
//! needs.

use station::testing::{ask, check, put, remove, report, Asking, Ending};
use station::{Store, STORE_BYTES};
use std::fs;
use std::path::Path;
use std::thread::Builder;

/// 64 KB for a call, and 16 KB for the thread around it.
const STACK: usize = 65_536 + 16_384;

fn shipped(name: &str) -> String {
    let examples = Path::new(env!("CARGO_MANIFEST_DIR")).join("../examples");
    fs::read_to_string(examples.join(name)).unwrap()
}

/// What a thread works on; all of it on the heap.
struct Lent {
    store: Vec<u8>,
    length: usize,
    text: Vec<u8>,
    reads: Vec<Asking>,
}

/// All five calls, again and again; what the last report gave.
fn calls(template: &str, lent: &mut Lent) -> Ending {
    let cell = [0x49, 35, 0, 1, 0, 0, 0, 0, 0, 0, 0, 7];
    let question = Asking {
        kind: 2,
        datasource: 35,
        parameter: 1,
        ..Asking::default()
    };
    let mut end = None;
    for _ in 0..20 {
        let (number, longer) = put(&mut lent.store, lent.length, &cell);
        assert_eq!((number, longer), (0, lent.length + 12));
        assert_eq!(ask(&lent.store, longer, question).0, 0);
        let (number, shorter) = remove(&mut lent.store, longer, &cell[1..8]);
        assert_eq!((number, shorter), (0, lent.length));
        assert_eq!(check(template.as_bytes(), b""), (0, 0));
        end = Some(report(
            template.as_bytes(),
            b"",
            &lent.store,
            lent.length,
            &mut lent.text,
            &mut lent.reads,
        ));
    }
    end.unwrap()
}

#[test]
fn calls_at_the_same_time_on_small_stacks() {
    let names = ["identification", "source-term", "summary", "protocol"];
    let threads = names.iter().cycle().take(8).map(|name| {
        let template = shipped(&format!("{name}/template"));
        let store = Store::from_text(&shipped(&format!("{name}/store.txt"))).unwrap();
        let expected = shipped(&format!("{name}/expected"));
        let mut lent = Lent {
            store: vec![0; STORE_BYTES],
            length: store.as_bytes().len(),
            text: vec![0; 65_536],
            reads: vec![Asking::default(); 4_096],
        };
        lent.store[..lent.length].copy_from_slice(store.as_bytes());
        let run = move || {
            let end = calls(&template, &mut lent);
            assert_eq!(end.number, 0);
            assert_eq!(&lent.text[..end.text_bytes], expected.as_bytes());
        };
        Builder::new().stack_size(STACK).spawn(run).unwrap()
    });
    let threads: Vec<_> = threads.collect();
    for thread in threads {
        thread.join().unwrap();
    }
}
