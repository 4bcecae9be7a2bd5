//! Pairs of contents to compare.

use super::Rng;

fn content(rng: &mut Rng, letters: &[u8], length: usize) -> Vec<u8> {
    (0..length).map(|_| rng.pick(letters)).collect()
}

/// Two contents of at most so many of these bytes: equal, unlike in one place or
/// a few, one the beginning of the other, the same bytes in another order, or
/// unlike altogether.
pub fn pair(rng: &mut Rng, letters: &[u8], most: usize) -> (Vec<u8>, Vec<u8>) {
    let length = rng.below(most + 1);
    let one = content(rng, letters, length);
    let mut other = one.clone();
    match rng.below(8) {
        0 => {}
        1 => other = content(rng, letters, length),
        2 => other.truncate(rng.below(length + 1)),
        3 => other.rotate_left(rng.below(length + 1)),
        _ if length > 0 => {
            for _ in 0..rng.pick(&[1, 1, 1, 2, 5]) {
                let any = rng.below(length);
                other[rng.pick(&[0, length - 1, any, any])] = rng.pick(letters);
            }
        }
        _ => {}
    }
    if rng.once_in(2) {
        (one, other)
    } else {
        (other, one)
    }
}
