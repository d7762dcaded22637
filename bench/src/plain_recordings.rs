//! Two recordings judged in plain Rust: the same checks as tefuji_judge, and the set of the states in which a run can stand.

/// A refusal's number and place.
pub type Refused = (u8, usize);

const STATES_MAX: usize = 256;

/// The verdict, or a refusal by 14, 22, for each event 12, 23, 12, and 14 where a way leaves the table.
pub fn judge(table: &[u8], opened: u64, first: &[u8], second: &[u8]) -> Result<u8, Refused> {
    let (signals, states) = (opened >> 32, (opened & 65535) as usize);
    if !(1..=4).contains(&signals) || !(1..=STATES_MAX).contains(&states) {
        return Err((14, 0));
    }
    let events = 1usize << signals;
    let row_length = 5 + 2 * events;
    if table.len() != 7 + states * row_length {
        return Err((14, 0));
    }
    if first.len() != second.len() || first.len() % 2 == 1 {
        return Err((22, 0));
    }
    let row = |state: usize| &table[7 + state * row_length..][..row_length];
    let successor = |row: &[u8], event: u8| {
        let place = 5 + 2 * usize::from(event);
        usize::from(u16::from_le_bytes([row[place], row[place + 1]]))
    };
    let possible: Vec<u8> =
        (0..events as u8).filter(|&event| successor(row(0), event) != 65535).collect();
    let high = !(events as u8 - 1);
    let mut now = [false; STATES_MAX];
    now[0] = true;
    let mut leaves = false;
    let mut choices = [0; 16];
    for (index, (a, b)) in first.chunks_exact(2).zip(second.chunks_exact(2)).enumerate() {
        let ([known_a, values_a], [known_b, values_b]) = ([a[0], a[1]], [b[0], b[1]]);
        if (known_a | known_b) & high != 0 || values_a & !known_a != 0 || values_b & !known_b != 0 {
            return Err((12, index));
        }
        if known_a & known_b & (values_a ^ values_b) != 0 {
            return Err((23, index));
        }
        let (known, values) = (known_a | known_b, values_a | values_b);
        let mut count = 0;
        for &event in &possible {
            if event & known == values {
                choices[count] = event;
                count += 1;
            }
        }
        if count == 0 {
            return Err((12, index));
        }
        let mut next = [false; STATES_MAX];
        for (number, eight) in now.as_chunks::<8>().0[..states.div_ceil(8)].iter().enumerate() {
            if *eight == [false; 8] {
                continue;
            }
            for state in (0..8).filter(|&state| eight[state]).map(|state| 8 * number + state) {
                let row = row(state);
                leaves |= row[4] > 3;
                for &event in &choices[..count] {
                    match next[..states].get_mut(successor(row, event)) {
                        Some(is_next) => *is_next = true,
                        None => leaves = true,
                    }
                }
            }
        }
        now = next;
    }
    let mut ends = (0..states).filter(|&state| now[state]).map(|state| row(state)[4]);
    if leaves || ends.clone().any(|verdict| verdict > 3) {
        return Err((14, 0));
    }
    let shown = ends.next().unwrap_or(0);
    match ends.all(|verdict| verdict == shown) {
        true => Ok(shown),
        false => Ok(0),
    }
}

#[cfg(test)]
mod tests {
    use super::*;
    use oracle::counted::opened;
    use oracle::random_recordings::recording;
    use oracle::recordings;
    use oracle::rng::Rng;
    use oracle::vectors::table_samples::{masked, random_events, random_small_monitor};

    #[test]
    fn answers_as_the_oracle_does() {
        let mut rng = Rng::new(91);
        let mut met = [0; 24];
        for _ in 0..20_000 {
            let monitor = random_small_monitor(&mut rng, 9);
            let monitor = masked(&mut rng, monitor);
            let count = rng.between(0, 7);
            let events = random_events(&mut rng, &monitor, count);
            let known = *rng.pick(&[0, 30, 60, 100]);
            let mut lent = [(); 2].map(|()| recording(&mut rng, monitor.signals, &events, known));
            let mut table = monitor.to_bytes();
            for bytes in lent.iter_mut().chain([&mut table]) {
                if !bytes.is_empty() && rng.chance(15) {
                    let place = rng.below(bytes.len());
                    bytes[place] ^= 1 << rng.below(8);
                }
                if rng.chance(2) {
                    bytes.push(0);
                }
            }
            let given = opened(monitor.signals, 700, monitor.states.len());
            let ours = judge(&table, given, &lent[0], &lent[1]);
            let oracle = recordings::judge((&table, given), &lent[0], &lent[1]);
            assert_eq!(ours, oracle.map(|v| v.to_byte()).map_err(|r| (r.number, r.place)));
            met[usize::from(ours.unwrap_or_else(|(number, _)| number))] += 1;
        }
        assert!([0, 1, 2, 3, 12, 14, 22, 23].iter().all(|&number| met[number] > 50), "{met:?}");
    }
}
