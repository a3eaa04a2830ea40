//! The measuring program: what it measures stands inside the crate midly, which passes on `Arena` alone.

fn main() {
    midly::Arena::bench(std::env::args().nth(1));
}
