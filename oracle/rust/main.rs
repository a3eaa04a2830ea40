//! The program of one mode: the harness is inside the crate midly, and of what stands there the crate passes on
//! `Arena` alone.

fn main() {
    std::process::exit(midly::Arena::compare(std::env::args().skip(1)));
}
