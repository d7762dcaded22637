//! Recordings of given events made at random, the same for the same seed.

use crate::rng::Rng;

/// A recording of these events in which each of so many signals is known in about `known` of 100.
pub fn recording(rng: &mut Rng, signals: u8, events: &[u8], known: usize) -> Vec<u8> {
    let mut seen = |&event: &u8| {
        let known = (0..signals).filter(|_| rng.chance(known)).fold(0, |mask, s| mask | 1 << s);
        [known, event & known]
    };
    events.iter().flat_map(&mut seen).collect()
}

/// Two recordings in which a signal is unknown to both in about `unknown` of 100; what is known is
/// known to the first, to the second, or to both.
pub fn two_recordings(rng: &mut Rng, signals: u8, events: &[u8], unknown: usize) -> [Vec<u8>; 2] {
    let mut recordings = [Vec::new(), Vec::new()];
    for &event in events {
        let mut known = [0, 0];
        for bit in (0..signals).map(|signal| 1 << signal) {
            if !rng.chance(unknown) {
                let knowing = rng.between(1, 3);
                known[0] |= if knowing & 1 == 1 { bit } else { 0 };
                known[1] |= if knowing & 2 == 2 { bit } else { 0 };
            }
        }
        for (recording, known) in recordings.iter_mut().zip(known) {
            recording.extend([known, event & known]);
        }
    }
    recordings
}

#[cfg(test)]
mod tests {
    use super::*;

    #[test]
    fn what_is_known_is_as_it_was() {
        let mut rng = Rng::new(81);
        let events = [0, 5, 7, 2];
        assert_eq!(recording(&mut rng, 3, &events, 100), [7, 0, 7, 5, 7, 7, 7, 2]);
        assert_eq!(recording(&mut rng, 3, &events, 0), [0; 8]);
        for [known, values] in recording(&mut rng, 3, &[5; 100], 50).as_chunks().0 {
            assert!(known <= &7 && *values == 5 & known);
        }
    }

    #[test]
    fn of_two_each_knows_something_and_both_together_about_as_much_as_is_said() {
        let mut rng = Rng::new(82);
        let [first, second] = two_recordings(&mut rng, 4, &[9; 1000], 50);
        let ones = |bytes: &[u8]| bytes.iter().map(|byte| byte.count_ones()).sum::<u32>();
        let known = |recording: &[u8]| recording.chunks(2).map(|pair| pair[0]).collect::<Vec<_>>();
        let (first, second) = (known(&first), known(&second));
        let both: Vec<u8> = first.iter().zip(&second).map(|(a, b)| a | b).collect();
        assert!((1800..2200).contains(&ones(&both)));
        assert!(ones(&first) > 1000 && ones(&second) > 1000 && ones(&first) < ones(&both));
    }
}
