//! Changes to bytes of any form.

use oracle::rng::Rng;

/// Changes one place, now and then several. What comes out may still be good.
pub fn in_place(rng: &mut Rng, bytes: &mut Vec<u8>) {
    let changes = if rng.chance(80) { 1 } else { rng.between(2, 4) };
    for _ in 0..changes {
        change_one(rng, bytes);
    }
}

fn change_one(rng: &mut Rng, bytes: &mut Vec<u8>) {
    if bytes.is_empty() {
        return;
    }
    let place = rng.below(bytes.len());
    match rng.below(10) {
        0..=2 => bytes[place] = rng.byte_below(16),
        3 => bytes[place] = rng.byte_below(256),
        4..=5 => bytes[place] ^= 1 << rng.below(8),
        6 => bytes.insert(place, rng.byte_below(256)),
        7 => drop(bytes.remove(place)),
        8 => bytes.truncate(place),
        _ => repeat_part(rng, bytes, place),
    }
}

/// Inserts once more what stands after a place.
fn repeat_part(rng: &mut Rng, bytes: &mut Vec<u8>, place: usize) {
    let end = bytes.len().min(place + rng.between(1, 12));
    let part = bytes[place..end].to_vec();
    bytes.splice(place..place, part);
}
