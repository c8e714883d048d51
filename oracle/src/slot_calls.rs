//! The compile call with tables of slots (02, 2026-12). What the areas leave over of the memory is the table, of any length and
//! with any words in it; reply and areas must be those without one, and every slot must be zero after the call.

use crate::areas::{area, Lengths, Memory, AREAS, ENTRY_WORDS};
use crate::compare::{foretold, judge_in, Calls, Side, STALE};
use crate::model::Run;
use crate::random::Random;

/// What was lent.
#[derive(Clone, Copy, Debug, Default, PartialEq, Eq)]
pub struct Tables {
    /// Calls with a table, also of length 0.
    pub lent: u64,
    /// Deliveries with more slots than constants, so that no search fell back.
    pub to_the_end: u64,
    /// Slots of all tables; each was compared after its call.
    pub slots: u64,
}

impl Tables {
    pub fn join(&mut self, other: &Tables) {
        self.lent += other.lent;
        self.to_the_end += other.to_the_end;
        self.slots += other.slots;
    }
}

/// Tables worth trying where the pool has so many entries in the end: none; one slot; the longest whose last search falls back,
/// and one slot more; twice the entries; and any.
pub fn lengths_of_tables(entries: usize, random: &mut Random) -> [usize; 6] {
    [0, 1, entries, entries + 1, 2 * entries, random.index(2 * entries + 16)]
}

/// What a table may hold before a call: empty slots, numbers of the pool and just beyond, and any words.
pub(crate) fn stale(slots: usize, entries: usize, random: &mut Random) -> Vec<u64> {
    let word = |random: &mut Random| match random.below(4) {
        0 => 0,
        1 | 2 => random.between(1, entries as u64 + 2),
        _ => random.next(),
    };
    (0..slots).map(|_| word(random)).collect()
}

/// Each table twice: with every area exactly full, and with one that is drawn an entry short.
pub fn judge_tables(
    side: &mut dyn Side,
    words: &[u64],
    free: &Run,
    random: &mut Random,
) -> Result<(Calls, Tables), String> {
    let peaks = free.peaks();
    let exact: Lengths = std::array::from_fn(|i| peaks[i] as usize * ENTRY_WORDS[i]);
    let entries = peaks[area::CONSTANTS - 1] as usize;
    let used: Vec<usize> = (0..AREAS).filter(|&i| exact[i] > 0).collect();
    let (mut calls, mut tables) = (Calls::new(), Tables::default());
    for slots in lengths_of_tables(entries, random) {
        let mut short = exact;
        if !used.is_empty() {
            short[random.pick(&used)] -= 1;
        }
        for lengths in [exact, short] {
            let (reply, areas) = foretold(free, &lengths);
            let memory = Memory::with_left_over(&lengths, &stale(slots, entries, random), STALE);
            judge_in(side, words, memory, &reply, &areas).map_err(|message| format!("{slots} slots, {message}"))?;
            calls.push((reply.row, reply.place));
            tables.lent += 1;
            tables.to_the_end += u64::from(reply.row == 0 && slots > entries);
            tables.slots += slots as u64;
        }
    }
    Ok((calls, tables))
}

#[cfg(test)]
mod tests {
    use super::*;

    #[test]
    fn stale_tables_hold_all_kinds_of_words() {
        let mut random = Random::new(3);
        let table = stale(1000, 20, &mut random);
        let count = |wanted: fn(u64) -> bool| table.iter().filter(|&&word| wanted(word)).count();
        assert!(count(|word| word == 0) > 100 && count(|word| (1..=20).contains(&word)) > 300);
        assert!(count(|word| word == 21 || word == 22) > 10 && count(|word| word > 1 << 32) > 100);
    }

    #[test]
    fn tables_end_where_the_fall_back_does() {
        let lengths = lengths_of_tables(7, &mut Random::new(1));
        assert_eq!(lengths[..5], [0, 1, 7, 8, 14]);
        assert_eq!(lengths_of_tables(0, &mut Random::new(1))[..5], [0, 1, 0, 1, 0]);
    }
}
