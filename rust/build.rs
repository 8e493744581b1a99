//! Links libstation.a.

mod library;

fn main() {
    library::link("station");
}
