//! Prints the tables of the theory crate `theory_samples`. Usage: samples SEED.
fn main() {
    let seed = std::env::args().nth(1).and_then(|seed| seed.parse().ok()).expect("a seed");
    print!("{}", reference::samples::printed(seed));
}
