//! Masks made at random, the same for the same seed.

use crate::mask::Mask;
use crate::rng::Rng;

/// How many of the events a mask leaves.
#[derive(Clone, Copy, Debug, PartialEq, Eq)]
pub enum Leaving {
    One,
    Two,
    Half,
    AllButOne,
    /// The mask says what a file without one does.
    All,
    /// Any number from one up.
    Any,
}

impl Leaving {
    pub const EACH: [Leaving; 6] =
        [Leaving::One, Leaving::Two, Leaving::Half, Leaving::AllButOne, Leaving::All, Leaving::Any];

    /// A mask over this many signals.
    pub fn draw(self, rng: &mut Rng, signals: u8) -> Mask {
        let width = 1 << signals;
        let left = match self {
            Leaving::One => 1,
            Leaving::Two => 2,
            Leaving::Half => width / 2,
            Leaving::AllButOne => width - 1,
            Leaving::All => width,
            Leaving::Any => rng.between(1, width),
        };
        let mut mask: Mask = 0;
        while (mask.count_ones() as usize) < left {
            mask |= 1 << rng.below(width);
        }
        mask
    }
}

/// A mask that leaves any of these.
pub fn any_mask(rng: &mut Rng, signals: u8) -> Mask {
    rng.pick(&Leaving::EACH).draw(rng, signals)
}

#[cfg(test)]
mod tests {
    use super::*;
    use crate::mask;

    #[test]
    fn masks_leave_as_many_events_as_is_asked() {
        let mut rng = Rng::new(51);
        for _ in 0..200 {
            for signals in 1..=4 {
                let mut left = |leaving: Leaving| leaving.draw(&mut rng, signals).count_ones();
                let width = 1 << signals;
                assert_eq!((left(Leaving::One), left(Leaving::Two)), (1, 2));
                assert_eq!((left(Leaving::Half), left(Leaving::All)), (width / 2, width));
                assert_eq!(left(Leaving::AllButOne), width - 1);
                let mask = any_mask(&mut rng, signals);
                assert!(mask != 0 && mask & !mask::full(signals) == 0);
            }
        }
    }

    #[test]
    fn every_mask_over_two_signals_is_drawn() {
        let mut rng = Rng::new(52);
        let drawn: Vec<Mask> = (0..2000).map(|_| any_mask(&mut rng, 2)).collect();
        assert!((1..=15).all(|mask| drawn.contains(&mask)));
    }
}
