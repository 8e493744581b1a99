//! Times of the proved calls beside the second interpreter and plain Rust, in one run, as ratios; and their stack use.
//! With the name of a sheet, `twelve` or `commands`, of what grows and how many (`lines 1000`), of lookups and the cells (`near 5461`), or
//! `check` and a template's number, that alone, whose instructions callgrind counts (`./count`); with `stack`, the stack alone.

mod growth;
mod lent;
mod report;
mod sheets;
mod single;
mod stack;
mod store;
mod template;
mod time;

fn main() {
    let mut words = std::env::args().skip(1);
    let (name, count) = (words.next(), words.next());
    match (name.as_deref(), count) {
        (Some("stack"), _) => single::stacks(),
        (Some(kind), Some(n)) => {
            let n = n.parse().expect("a number");
            match kind {
                "check" => template::once(n),
                "look" | "untried" | "near" | "sequence" => store::once(kind, n),
                _ => growth::run(kind, n),
            }
        }
        (Some(name), None) => single::run(name),
        (None, _) => {
            store::run();
            template::run();
            report::run();
            single::stacks();
        }
    }
}
