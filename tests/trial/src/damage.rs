//! Kinds of damage, and how one of them is chosen.

use crate::random::Random;

/// A kind of damage: its name, its weight, the deed.
pub type Damage<T> = (&'static str, usize, fn(&mut Random, &mut T));

/// One of the kinds, by weight.
pub fn choose<T>(random: &mut Random, kinds: &[Damage<T>]) -> Damage<T> {
    let mut left = random.below(kinds.iter().map(|kind| kind.1).sum());
    let mut at = 0;
    while left >= kinds[at].1 {
        left -= kinds[at].1;
        at += 1;
    }
    kinds[at]
}
