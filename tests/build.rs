//! Links libstation_testing.a, beside the libstation.a of the package `station`.

#[path = "../rust/library.rs"]
mod library;

fn main() {
    library::link("station_testing");
}
