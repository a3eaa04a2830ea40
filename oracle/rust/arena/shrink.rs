//! A smaller input that still shows what a larger one shows.

/// What is left of some things when all are left out that can be: halves first, then smaller parts, then one by one.
pub fn things<T: Clone>(whole: &[T], shows: impl Fn(&[T]) -> bool) -> Vec<T> {
    let mut least = whole.to_vec();
    let mut part = least.len();
    while part > 0 {
        least = without_parts(least, part, &shows);
        part /= 2;
    }
    least
}

/// Leaves out each part of this length that can be.
fn without_parts<T: Clone>(mut least: Vec<T>, part: usize, shows: &impl Fn(&[T]) -> bool) -> Vec<T> {
    let mut at = 0;
    while at + part <= least.len() {
        let less = [&least[..at], &least[at + part..]].concat();
        if shows(&less) {
            least = less;
        } else {
            at += 1;
        }
    }
    least
}

/// The same of bytes, where each that is left is then made 0 if it can be.
pub fn bytes(whole: &[u8], shows: impl Fn(&[u8]) -> bool) -> Vec<u8> {
    let mut least = things(whole, &shows);
    for at in 0..least.len() {
        let byte = std::mem::take(&mut least[at]);
        if !shows(&least) {
            least[at] = byte;
        }
    }
    least
}
