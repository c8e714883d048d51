//! The quicker constant search (02, 2026-12), as an independent reading of that request: the home slot is a
//! parameter; filling, looking and falling back are here. Above each rule stands the sentence that it comes
//! from.

use crate::parts::Part;
use crate::random::Random;

/// Kind and value, as area 2 has them (01, "Emission"): null, boolean, integer, float, text, model, function.
pub type Constant = (u64, u64);

pub const INTEGER: u64 = 2;
pub const FLOAT: u64 = 3;
pub const TEXT: u64 = 4;

/// "its home slot (a definition in specs/)": of a constant, among so many slots, which are not none.
pub type Home<'a> = &'a dyn Fn(Constant, u64) -> u64;

/// The home slot as crates/constant_slots/specs/Home.antt has it: the value times a prime that does not divide the number of slots; each
/// kind begins an eighth of the slots after the one before. Of a float it is its number among the round ones, or its bits, folded.
pub fn specs_home((kind, value): Constant, slots: u64) -> u64 {
    let spread = match kind {
        FLOAT => float_number(value, slots) % (slots - u64::from(slots % 2 == 0)),
        _ => value % slots,
    };
    let stride: u64 = [13, 11, 7, 5, 3].into_iter().find(|prime| slots % prime != 0).unwrap_or(1);
    let sum = u128::from(spread) * u128::from(stride) + u128::from(kind % 8) * u128::from(slots / 8);
    (sum % u128::from(slots)) as u64
}

/// Round is a float whose bits end with ten zeros fewer, at least, than the number of slots begins with.
fn float_number(bits: u64, slots: u64) -> u64 {
    let zeros = slots.leading_zeros() - 10;
    if bits.trailing_zeros() >= zeros {
        return bits >> zeros;
    }
    bits % 3_162_277_669 * (bits % 2_718_281_831) % 4_294_967_291
}

/// The constants of area 2's words up to its total; marks have no part in a search.
pub fn pool(words: &[u64]) -> Vec<Constant> {
    words.chunks_exact(3).map(|entry| (entry[0], entry[1])).collect()
}

/// "Integers, texts and floats go through one definition of sameness": kind and value, floats by their 64 bits.
pub fn same(here: Constant, there: Constant) -> bool {
    here.0 == there.0 && here.1 == there.1
}

/// "Beside the plain pool search": the first number that has the constant.
pub fn plain_search(pool: &[Constant], wanted: Constant) -> Option<u64> {
    pool.iter().position(|&constant| same(constant, wanted)).map(|number| number as u64)
}

/// Slots in the order in which they are looked at: from the home slot on, round the end.
fn round(home: u64, slots: usize) -> impl Iterator<Item = usize> {
    (0..slots).map(move |step| ((home as u128 + step as u128) % slots as u128) as usize)
}

/// "takes the first empty slot from its home slot (a definition in specs/) on, round the end". A slot holds 0, or a pool
/// number and 1. Where every slot is taken there is none to take; then no search looks at the table either.
pub fn put(table: &mut [u64], number: u64, constant: Constant, home: Home) {
    if table.is_empty() {
        return;
    }
    if let Some(empty) = round(home(constant, table.len() as u64), table.len()).find(|&slot| table[slot] == 0) {
        table[empty] = number + 1;
    }
}

/// "a lent table of slots, filled anew in each call: every pool entry in order, repeats too".
pub fn fill(pool: &[Constant], slots: usize, home: Home) -> Vec<u64> {
    let mut table = vec![0; slots];
    for (number, &constant) in (0..).zip(pool) {
        put(&mut table, number, constant, home);
    }
    table
}

/// "A slot table with no more slots than the pool has entries, and no other, falls back to the plain search".
pub fn falls_back(slots: usize, entries: usize) -> bool {
    slots <= entries
}

/// The search: the constant's number, and "how many slots it looked at, from the constant's home slot to the first empty
/// or with it, and 0 where it fell back". On a table that is not so filled too: a slot that names no entry of the pool is
/// passed, and after the last slot there is none.
pub fn search(table: &[u64], pool: &[Constant], wanted: Constant, home: Home) -> (Option<u64>, u64) {
    if falls_back(table.len(), pool.len()) {
        return (plain_search(pool, wanted), 0);
    }
    let mut looked = 0;
    for slot in round(home(wanted, table.len() as u64), table.len()) {
        looked += 1;
        let Some(number) = table[slot].checked_sub(1) else {
            return (None, looked);
        };
        if usize::try_from(number).ok().and_then(|n| pool.get(n)).is_some_and(|&found| same(found, wanted)) {
            return (Some(number), looked);
        }
    }
    (None, looked)
}

/// Adding a constant while a bundle is compiled: the number that it has or gets, and the slots looked at. A new one takes
/// its slot as in filling.
pub fn add(table: &mut [u64], pool: &mut Vec<Constant>, wanted: Constant, home: Home) -> (u64, u64) {
    let (found, looked) = search(table, pool, wanted, home);
    let number = found.unwrap_or_else(|| {
        let number = pool.len() as u64;
        pool.push(wanted);
        put(table, number, wanted, home);
        number
    });
    (number, looked)
}

/// "After it all are zero (as lent where the program check refuses)": the table after a call of the compile family.
pub fn after_call(lent: &[u64], program_refused: bool) -> Vec<u64> {
    if program_refused {
        lent.to_vec()
    } else {
        vec![0; lent.len()]
    }
}

// Inputs from a seed.

/// One search.
#[derive(Clone, Debug, PartialEq, Eq)]
pub struct Case {
    /// Any words where `filled` is false.
    pub table: Vec<u64>,
    pub pool: Vec<Constant>,
    pub wanted: Constant,
    /// Whether the table is what filling gives.
    pub filled: bool,
}

fn some_constant(random: &mut Random, slots: u64) -> Constant {
    let near = |random: &mut Random| match random.below(4) {
        0 => random.pick(&[0, 1, 1 << 63, u64::MAX, (1 << 63) - 1]),
        1 => random.below(4) * slots + random.below(2),
        _ => random.below(6),
    };
    match random.below(8) {
        0 => random.pick(&[(0, 0), (1, 1), (1, 0)]),
        1..=3 => (INTEGER, near(random)),
        4 => (FLOAT, random.pick(&[0, 1 << 63, 0x7FF8_0000_0000_0000, 0x7FF8_0000_0000_0001, 1, 1_048_573])),
        5 => (FLOAT, random.pick(&[0.5f64, 1.35, 2.0]).to_bits()),
        6 => (TEXT, random.between(1, 6)),
        _ => (random.pick(&[5, 6]), random.below(4)),
    }
}

/// Pools with repeats and with values a table's length apart; tables from none to twice the pool, around its length
/// more often; some of them damaged or full of any words.
pub fn case(seed: u64, index: u64, home: Home) -> Case {
    let mut random = Random::for_case(seed, index);
    let entries = random.below(14) as usize;
    let slots = match random.below(4) {
        0 => random.index(2 * entries + 3),
        _ => (entries + random.index(4)).saturating_sub(1),
    };
    let mut pool: Vec<Constant> = vec![(0, 0), (1, 1), (1, 0)];
    while pool.len() < entries {
        let again = random.chance(150);
        let constant = if again { random.pick(&pool) } else { some_constant(&mut random, slots as u64 + 1) };
        pool.push(constant);
    }
    pool.truncate(entries);
    let known = !pool.is_empty() && random.chance(500);
    let wanted = if known { random.pick(&pool) } else { some_constant(&mut random, slots as u64 + 1) };
    let mut table = fill(&pool, slots, home);
    let filled = random.chance(700) || table.is_empty();
    if !filled {
        for _ in 0..random.between(1, 3) {
            let at = random.index(table.len());
            table[at] = random.pick(&[0, 1, 2, entries as u64, entries as u64 + 1, u64::MAX, 1 << 63]);
        }
        if random.chance(200) {
            table.iter_mut().for_each(|slot| *slot = random.between(1, 2 * entries as u64 + 2));
        }
    }
    let filled = filled || table == fill(&pool, slots, home);
    Case { table, pool, wanted, filled }
}

// Stored cases of the program `word_cases`: a line of its input, and the line that it must write.

const SEARCH: u64 = 1;
const FILL: u64 = 2;
const PUT: u64 = 3;
const CLEAR: u64 = 4;

/// What all slots beside a table hold.
const BESIDE: u64 = 7;

fn listed(words: impl IntoIterator<Item = u64>) -> String {
    words.into_iter().map(|word| format!(" {word}")).collect()
}

fn stored(label: &str, way: u64, case: &Case) -> (String, String) {
    let (count, slots) = (case.pool.len() as u64, case.table.len());
    let head = [way, case.wanted.0, case.wanted.1, count, slots as u64];
    let words = case.pool.iter().flat_map(|&(kind, value)| [kind, value, kind % 2]);
    let line = format!("{label}:{}", listed(head.into_iter().chain(case.table.clone()).chain(words)));
    if way == SEARCH {
        let (number, looked) = search(&case.table, &case.pool, case.wanted, &specs_home);
        return (line, format!("{label}:{}", listed([u64::from(number.is_some()), number.unwrap_or(0), looked])));
    }
    let mut table = match way {
        FILL => fill(&case.pool, slots, &specs_home),
        CLEAR => after_call(&case.table, false),
        _ => case.table.clone(),
    };
    if way == PUT {
        put(&mut table, count, case.wanted, &specs_home);
    }
    (line, format!("{label}:{}", listed([BESIDE].into_iter().chain(table).chain([BESIDE]))))
}

/// The part `slots` of the stored cases of `word_cases`: pieces by hand, then cases from a seed.
pub fn stored_cases() -> Part {
    let hand = |pool: &[Constant], slots: usize, wanted| {
        let table = fill(pool, slots, &specs_home);
        Case { table, pool: pool.to_vec(), wanted, filled: true }
    };
    let pair = [(INTEGER, 3), (INTEGER, 7)];
    let floats = [(FLOAT, 0), (FLOAT, 1 << 63), (INTEGER, 0), (FLOAT, 0x7FF8_0000_0000_0001)];
    let round = [1.0f64, 1.125, 1.25, 2.0, -1.0, 0.1, 1.0625].map(|value| (FLOAT, value.to_bits()));
    let mut lines = vec![
        stored("at home", SEARCH, &hand(&pair, 4, (INTEGER, 3))),
        stored("round the end", SEARCH, &hand(&pair, 4, (INTEGER, 7))),
        stored("not there", SEARCH, &hand(&pair, 4, (INTEGER, 11))),
        stored("as many slots as entries", SEARCH, &hand(&pair, 2, (INTEGER, 7))),
        stored("one slot more", SEARCH, &hand(&pair, 3, (INTEGER, 7))),
        stored("no slots and no entries", SEARCH, &hand(&[], 0, (INTEGER, 7))),
        stored("one slot and no entries", SEARCH, &hand(&[], 1, (INTEGER, 7))),
        stored("a repeat is not the first", SEARCH, &hand(&[(INTEGER, 5), (INTEGER, 5)], 9, (INTEGER, 5))),
        stored("minus zero", SEARCH, &hand(&floats, 9, (FLOAT, 1 << 63))),
        stored("another not-a-number", SEARCH, &hand(&floats, 9, (FLOAT, 0x7FF8_0000_0000_0000))),
        stored("a text of that value", SEARCH, &hand(&floats, 9, (TEXT, 0))),
        stored("filling with repeats", FILL, &hand(&[(INTEGER, 5), (INTEGER, 5), (INTEGER, 5)], 5, (INTEGER, 0))),
        stored("filling too few slots", FILL, &hand(&floats, 3, (INTEGER, 0))),
        stored("round floats, and two that are not", FILL, &hand(&round, 16, (INTEGER, 0))),
        stored("six round floats, and one that is not", FILL, &hand(&round, 33, (INTEGER, 0))),
        stored("no slot to take", PUT, &hand(&pair, 2, (INTEGER, 9))),
    ];
    for index in 0..300 {
        let case = case(12, index, &specs_home);
        lines.push(stored(&format!("search {index}"), SEARCH, &case));
        let way = [FILL, PUT, CLEAR][index as usize % 3];
        lines.push(stored(&format!("{} {index}", ["fill", "put", "clear"][index as usize % 3]), way, &case));
    }
    let text = |pick: fn(&(String, String)) -> &String| lines.iter().map(|line| pick(line).clone() + "\n").collect();
    Part { given: text(|line| &line.0), wanted: text(|line| &line.1) }
}

/// How many slots a pool's constants are looked for in while it grows, on average and at most.
pub fn looked_at(pool: &[Constant], slots: usize, home: Home) -> (f64, u64) {
    let mut table = vec![0u64; slots];
    let (mut all, mut most) = (0, 0);
    for (number, &constant) in (0u64..).zip(pool) {
        let (found, looked) = search(&table, &pool[..number as usize], constant, home);
        all += looked;
        most = most.max(looked);
        if found.is_none() {
            put(&mut table, number, constant, home);
        }
    }
    (all as f64 / pool.len() as f64, most)
}

/// Pools to be looked through: a name and the constants.
pub fn shapes(n: u64) -> Vec<(&'static str, Vec<Constant>)> {
    let each = |constant: &dyn Fn(u64) -> Constant| (1..=n).map(constant).collect::<Vec<_>>();
    let float = |value: f64| (FLOAT, value.to_bits());
    let mut random = Random::new(12);
    vec![
        ("integers 1, 2, 3 ..", each(&|k| (INTEGER, k))),
        ("integers -1, -2 ..", each(&|k| (INTEGER, k.wrapping_neg()))),
        ("integers 10, 20 ..", each(&|k| (INTEGER, k * 10))),
        ("integers 1000, 2000 ..", each(&|k| (INTEGER, k * 1000))),
        ("integers 1024, 2048 ..", each(&|k| (INTEGER, k * 1024))),
        ("random integers", each(&|k| (INTEGER, Random::for_case(5, k).below(1 << 62)))),
        ("texts 1, 2, 3 ..", each(&|k| (TEXT, k))),
        ("floats 0.5, 1.0 ..", each(&|k| float(k as f64 * 0.5))),
        ("floats 0.01, 0.02 ..", each(&|k| float(k as f64 / 100.0))),
        ("floats 0.05, 0.10 ..", each(&|k| float(k as f64 * 0.05))),
        ("floats 0.125, 0.25 ..", each(&|k| float(k as f64 / 8.0))),
        ("floats 1, 2, 3 ..", each(&|k| float(k as f64))),
        ("floats 0.5, -0.5, 1.0, -1.0 ..", each(&|k| float((k + 1) as f64 * [0.25, -0.25][k as usize % 2]))),
        ("floats 1 + 2^-20, 1 + 2 × 2^-20 ..", each(&|k| float(1.0 + k as f64 / 1_048_576.0))),
        ("floats 10, 20 ..", each(&|k| float(k as f64 * 10.0))),
        ("floats 1.35, 2.35 ..", each(&|k| float(k as f64 + 0.35))),
        ("floats 1 + 10^-9, 1 + 2 × 10^-9 ..", each(&|k| float(1.0 + k as f64 * 1e-9))),
        ("floats of random mantissas", (0..n).map(|_| (FLOAT, random.below(1 << 52) | 0x3FF << 52)).collect()),
        ("texts and floats 0.5 ..", each(&|k| if k % 2 == 0 { (TEXT, k / 2) } else { float(k as f64 * 0.25 + 0.25) })),
        ("texts and floats 0.05 ..", each(&|k| if k % 2 == 0 { (TEXT, k / 2) } else { float(k as f64 * 0.05) })),
        ("texts and functions", each(&|k| (4 + k % 2 * 2, k / 2))),
        ("integers, texts and functions", each(&|k| (2 + k % 3 * 2, k / 3))),
        (
            "7 integers to 3 texts",
            each(&|k| if k % 10 < 7 { (INTEGER, k / 10 * 7 + k % 10) } else { (TEXT, k / 10 * 3 + k % 10 - 7) }),
        ),
    ]
}

#[cfg(test)]
mod tests {
    use super::*;
    use std::collections::BTreeSet;

    /// Homes to try: that of the specs, all in one slot, all in the last, and some that scatter.
    fn homes() -> Vec<Box<dyn Fn(Constant, u64) -> u64>> {
        vec![
            Box::new(specs_home),
            Box::new(|_, _| 0),
            Box::new(|_, n| n - 1),
            Box::new(|(kind, value), n| (kind * 31 + value % 1000 * 7) % n),
            Box::new(|(kind, _), n| kind % n),
        ]
    }

    /// All lists of up to so many of these.
    fn lists(from: &[Constant], most: usize) -> Vec<Vec<Constant>> {
        let mut last: Vec<Vec<Constant>> = vec![Vec::new()];
        let mut all = last.clone();
        for _ in 0..most {
            last = last.iter().flat_map(|l| from.iter().map(|&c| [&l[..], &[c]].concat())).collect();
            all.extend(last.clone());
        }
        all
    }

    /// "In n slots, n non-negative integers in a row have different home slots."
    #[test]
    fn reading_2_integers_in_a_row() {
        for n in (1..=70u64).chain([1001, 5005, 15_015]) {
            for start in [0, 1, 5, 1 << 20, 1 << 32, (1 << 63) - n] {
                let homes: BTreeSet<u64> = (start..start + n).map(|value| specs_home((INTEGER, value), n)).collect();
                assert_eq!(homes.len() as u64, n);
                assert!(homes.iter().all(|&home| home < n));
            }
        }
    }

    /// `row-of-floats`: as many round floats in a row as there are odd slots, and the powers of two among them.
    #[test]
    fn round_floats_in_a_row() {
        for n in (1..=70u64).chain([1001, 1023, 1024, 1025, 15_015]) {
            let odd = n - (n + 1) % 2;
            let zeros = n.leading_zeros() - 10;
            for first in [0, 1, 1.0f64.to_bits() >> zeros, (-2.5f64).to_bits() >> zeros] {
                let homes: BTreeSet<u64> = (first..first + odd).map(|i| specs_home((FLOAT, i << zeros), n)).collect();
                assert_eq!(homes.len() as u64, odd, "{n} slots");
            }
            let powers = (-500..500).take(odd as usize).map(|power| (FLOAT, 2f64.powi(power).to_bits()));
            let homes: BTreeSet<u64> = powers.clone().map(|power| specs_home(power, n)).collect();
            assert_eq!(homes.len(), powers.count(), "{n} slots");
        }
    }

    #[test]
    fn reading_1_after_a_call() {
        assert_eq!(after_call(&[7, 0, u64::MAX], false), [0, 0, 0]);
        assert_eq!(after_call(&[7, 0, u64::MAX], true), [7, 0, u64::MAX]);
    }

    /// For every small pool, table length and constant: the plain search's answer, and the slots counted.
    #[test]
    fn readings_3_to_5_every_small_pool() {
        let constants = [(INTEGER, 0), (INTEGER, 3), (FLOAT, 0), (TEXT, 3)];
        for home in homes() {
            for pool in lists(&constants, 4) {
                for slots in 0..7 {
                    let table = fill(&pool, slots, &home);
                    let taken: Vec<u64> = table.iter().copied().filter(|&slot| slot != 0).collect();
                    assert_eq!(taken.len(), slots.min(pool.len()), "every entry has its slot, repeats too");
                    for wanted in constants.into_iter().chain([(INTEGER, 7), (FLOAT, 1 << 63)]) {
                        let (found, looked) = search(&table, &pool, wanted, &home);
                        assert_eq!(found, plain_search(&pool, wanted));
                        assert_eq!(looked == 0, slots <= pool.len(), "falls back there and nowhere else");
                        if slots <= pool.len() {
                            continue;
                        }
                        assert!(looked as usize <= pool.len() + 1);
                        // The slot where looking ends, found otherwise: where the first equal entry was put.
                        let end = (home(wanted, slots as u64) as usize + looked as usize - 1) % slots;
                        match found {
                            Some(number) => assert_eq!(table.iter().position(|&slot| slot == number + 1), Some(end)),
                            None => assert_eq!(table[end], 0),
                        }
                    }
                }
            }
        }
    }

    #[test]
    fn reading_4_where_it_falls_back() {
        let pool = [(0, 0), (1, 1), (1, 0), (INTEGER, 9)];
        for slots in 0..10 {
            let (found, looked) = search(&fill(&pool, slots, &specs_home), &pool, (INTEGER, 9), &specs_home);
            assert_eq!((found, looked > 0), (Some(3), slots >= 5));
        }
        assert_eq!(search(&[], &[], (INTEGER, 0), &specs_home), (None, 0), "no slots and no entries");
        assert_eq!(search(&[0], &[], (INTEGER, 0), &specs_home), (None, 1));
    }

    #[test]
    fn reading_5_slots_looked_at() {
        let home: Home = &|(_, value), n| value % n;
        // Four slots: 0 and 4 meet in slot 0, and 4 goes on to slot 1.
        let pool = [(INTEGER, 0), (INTEGER, 4)];
        let table = fill(&pool, 4, home);
        assert_eq!(table, [1, 2, 0, 0]);
        assert_eq!(search(&table, &pool, (INTEGER, 0), home), (Some(0), 1));
        assert_eq!(search(&table, &pool, (INTEGER, 4), home), (Some(1), 2));
        assert_eq!(search(&table, &pool, (INTEGER, 8), home), (None, 3));
        assert_eq!(search(&table, &pool, (INTEGER, 1), home), (None, 2));
        assert_eq!(search(&table, &pool, (INTEGER, 2), home), (None, 1));
        // Round the end.
        let pool = [(INTEGER, 3), (INTEGER, 7)];
        let table = fill(&pool, 4, home);
        assert_eq!(table, [2, 0, 0, 1]);
        assert_eq!(search(&table, &pool, (INTEGER, 7), home), (Some(1), 2));
        assert_eq!(search(&table, &pool, (INTEGER, 11), home), (None, 3));
        // Repeats take slots of their own, and the first is found.
        let pool = [(INTEGER, 0), (INTEGER, 0)];
        assert_eq!(fill(&pool, 3, home), [1, 2, 0]);
        assert_eq!(search(&fill(&pool, 3, home), &pool, (INTEGER, 0), home), (Some(0), 1));
        assert_eq!(search(&fill(&pool, 3, home), &pool, (INTEGER, 3), home), (None, 3));
    }

    #[test]
    fn reading_6_any_table() {
        let home: Home = &|(_, value), n| value % n;
        let pool = [(INTEGER, 5)];
        // Slots that name no entry are passed; without an empty slot looking ends after the last.
        assert_eq!(search(&[9, u64::MAX, 9], &pool, (INTEGER, 1), home), (None, 3));
        assert_eq!(search(&[9, u64::MAX, 1], &pool, (INTEGER, 5), home), (Some(0), 1));
        assert_eq!(search(&[1, 9, 9], &pool, (INTEGER, 5), home), (Some(0), 2));
        assert_eq!(search(&[9, 9, 0], &pool, (INTEGER, 5), home), (None, 1), "an empty slot ends it, found or not");
    }

    #[test]
    fn reading_7_sameness() {
        let pool = [(FLOAT, 0), (FLOAT, 1 << 63), (INTEGER, 0), (TEXT, 1), (FLOAT, 0x7FF8_0000_0000_0001)];
        for home in homes() {
            let table = fill(&pool, 9, &home);
            for (number, &constant) in pool.iter().enumerate() {
                assert_eq!(search(&table, &pool, constant, &home).0, Some(number as u64));
            }
            assert_eq!(search(&table, &pool, (INTEGER, 1), &home).0, None);
            assert_eq!(search(&table, &pool, (FLOAT, 0x7FF8_0000_0000_0000), &home).0, None);
        }
    }

    /// 5.3 and 5.4: a constant added during the work takes its slot in the same way, so that the table is at any time
    /// what filling anew gives; a call may begin with the table and end without it.
    #[test]
    fn a_pool_that_grows() {
        for home in homes() {
            for seed in 0..40 {
                let mut random = Random::new(seed);
                let slots = random.index(30);
                let mut pool = vec![(0, 0), (1, 1), (1, 0)];
                let mut table = fill(&pool, slots, &home);
                let mut plain = pool.clone();
                for _ in 0..40 {
                    let wanted = some_constant(&mut random, 8);
                    let expected = plain_search(&plain, wanted).unwrap_or_else(|| {
                        plain.push(wanted);
                        plain.len() as u64 - 1
                    });
                    let falls_back = slots <= pool.len();
                    let (number, looked) = add(&mut table, &mut pool, wanted, &home);
                    assert_eq!((number, looked == 0), (expected, falls_back));
                    assert_eq!(pool, plain);
                    assert_eq!(table, fill(&pool, slots, &home));
                }
            }
        }
    }

    #[test]
    fn cases_of_a_seed() {
        let (mut filled, mut back, mut found) = (0, 0, 0);
        for index in 0..20_000 {
            let case = case(1, index, &specs_home);
            let (number, looked) = search(&case.table, &case.pool, case.wanted, &specs_home);
            assert_eq!(looked == 0, case.table.len() <= case.pool.len());
            assert!(looked as usize <= case.table.len());
            if case.filled || looked == 0 {
                assert_eq!(number, plain_search(&case.pool, case.wanted));
            } else if let Some(number) = number {
                assert!(same(case.pool[number as usize], case.wanted));
            }
            filled += u64::from(case.filled);
            back += u64::from(looked == 0);
            found += u64::from(number.is_some());
        }
        assert!(filled > 5000 && filled < 19_000 && back > 2000 && found > 2000, "{filled} {back} {found}");
    }

    /// The stored cases are these; `BLESS=1 cargo test slots` writes them anew.
    #[test]
    fn the_stored_cases_are_current() {
        if std::env::var("BLESS").is_ok() {
            crate::parts::store("slots", stored_cases());
        }
        assert!(crate::parts::is_stored("slots", &stored_cases()), "`BLESS=1 cargo test slots` writes them anew");
    }

    /// Every shape with twice the slots: `cargo test --release slots_looked_at -- --ignored --nocapture` prints the figures.
    #[test]
    #[ignore]
    fn slots_looked_at() {
        for n in [10_000, 100_000, 1_000_000] {
            for (name, pool) in shapes(n) {
                for slots in [2 * n, 2 * n + 1] {
                    let (mean, most) = looked_at(&pool, slots as usize, &specs_home);
                    println!("{n:>8} {slots:>8} {name:34} {mean:>8.2} {most:>6}");
                }
            }
        }
    }

    /// Tables of at least twice the constants: each number from there on, some up to four times as many, multiples of round
    /// numbers and of 1001, and powers of two.
    fn tables(n: u64) -> Vec<u64> {
        let near = (1..=200).map(|more| 2 * n + more);
        let far = (0..100).map(|step| 2 * n + 1 + step * n / 50);
        let multiples = [360, 1000, 1001, 1024, 3003, 5005].map(|factor| (2 * n).div_ceil(factor) * factor);
        let power = (2 * n).next_power_of_two();
        near.chain(far).chain(multiples).chain([power - 1, power, power + 1, 2 * power]).collect()
    }

    /// Every shape in all of these tables: `cargo test --release slots_of_many_tables -- --ignored --nocapture` prints the mean of
    /// the means, the greatest and where it is.
    #[test]
    #[ignore]
    fn slots_of_many_tables() {
        for n in [1_000, 20_000] {
            let tables = tables(n);
            for (name, pool) in shapes(n) {
                let mean = |&slots: &u64| (looked_at(&pool, slots as usize, &specs_home).0, slots);
                let means: Vec<(f64, u64)> = tables.iter().map(mean).collect();
                let all = means.iter().map(|mean| mean.0).sum::<f64>() / means.len() as f64;
                let (most, slots) =
                    means.into_iter().fold((0.0, 0), |most, mean| if mean.0 > most.0 { mean } else { most });
                println!("{n:>8} {name:34} {all:>8.2} {most:>8.2} among {slots}");
            }
        }
    }
}
