//! Masks of events: bit e of a mask says that event e can happen.

/// One bit for each of up to 16 events.
pub type Mask = u16;

/// All events over this many signals.
pub fn full(signals: u8) -> Mask {
    Mask::MAX >> (16 - (1 << signals))
}

pub fn has(mask: Mask, event: u8) -> bool {
    event < 16 && mask >> event & 1 == 1
}

/// The events of a mask, ascending.
pub fn events(mask: Mask) -> impl Iterator<Item = u8> + Clone {
    (0..16).filter(move |&event| has(mask, event))
}

/// The mask of these events.
pub fn of(events: impl IntoIterator<Item = u8>) -> Mask {
    events.into_iter().fold(0, |mask, event| mask | 1 << event)
}

#[cfg(test)]
mod tests {
    use super::*;

    #[test]
    fn a_full_mask_has_as_many_events_as_the_signals_show() {
        assert_eq!([1, 2, 3, 4].map(full), [3, 15, 255, 65535]);
        assert!(events(full(2)).eq([0, 1, 2, 3]));
    }

    #[test]
    fn a_mask_is_read_from_its_lowest_bit_on() {
        assert!(events(7).eq([0, 1, 2]));
        assert!(events(0x8001).eq([0, 15]));
        assert_eq!(of([0, 15, 1]), 0x8003);
        assert!(has(4, 2) && !has(4, 1) && !has(65535, 16) && !has(65535, 255));
    }
}
