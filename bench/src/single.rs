//! Single reports: what each must end with, one call of it for callgrind, and its stack.

use crate::lent::Lent;
use crate::sheets::{commands, few_cells, load, twelve};
use crate::stack;
use std::hint::black_box;

/// A template, a store, and the pages, text bytes and questions of the report.
struct Sheet {
    template: Vec<u8>,
    store: Vec<u8>,
    counts: (u32, usize, usize),
}

fn sheet(name: &str) -> Sheet {
    match name {
        "twelve" => Sheet {
            template: twelve(),
            store: load(),
            counts: (34, 24_033, 2_000),
        },
        "commands" => Sheet {
            template: commands(),
            store: few_cells(),
            counts: (9, 17_261, 4_000),
        },
        _ => panic!("no sheet {name}: twelve or commands"),
    }
}

/// One report by ours, which must be the second interpreter's.
pub fn run(name: &str) {
    let Sheet {
        template,
        store,
        counts,
    } = sheet(name);
    let (mut a, mut b) = (Lent::new(), Lent::new());
    let end = a.ours(&template, &store);
    assert_eq!(end, b.theirs(&template, &store));
    assert!(a.agrees(&b));
    assert_eq!(
        (end.number, end.pages, end.text_bytes, end.questions),
        (0, counts.0, counts.1, counts.2)
    );
    println!(
        "{name}: {} pages, {} bytes, {} questions",
        end.pages, end.text_bytes, end.questions
    );
}

pub fn stacks() {
    for name in ["twelve", "commands"] {
        let Sheet {
            template, store, ..
        } = sheet(name);
        let mut l = Lent::new();
        let used = stack::used(move || {
            black_box(l.ours(&template, &store));
        });
        println!("stack in bytes, of 65,536: report {name} {used}");
        assert!(used < 65_536, "report uses more than 64 KB of stack");
    }
}
