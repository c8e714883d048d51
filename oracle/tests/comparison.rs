//! The Rust and the model over some thousand bundles, and that seeds and sample stay as they are.

use oracle::areas::{AREAS, UNLIMITED};
use oracle::compare::{compare, judge_side, lengths, shrink, Model, Plan, Side, Tally};
use oracle::generate::{case, Sizes};
use oracle::model::compile;
use oracle::random::Random;
use oracle::views::Answered;
use oracle::{areas, columns, listing, pieces, sample, stored};
use std::collections::BTreeSet;
use std::path::Path;

fn assert_alike(seed: u64, count: u64, sizes: Sizes) -> Tally {
    let (tally, first) = compare(Plan { seed, count, sizes, stop: false, head_includes: false }, None);
    if let Some(first) = first {
        panic!("case {}: {}\n{:?}", first.index, first.message, first.shrunk);
    }
    tally
}

#[test]
fn mixed_bundles_are_alike() {
    let tally = assert_alike(100, 4000, Sizes::Mixed);
    assert!((2..=8).all(|row| tally.rows[row] > 0), "{tally:?}");
    assert!((1..=11).all(|error| tally.errors[error] > 0), "{tally:?}");
    assert!(tally.full.iter().all(|&count| count > 0), "{tally:?}");
    assert!(tally.panics > 0 && tally.rows[0] > 2000, "{tally:?}");
}

#[test]
fn large_bundles_are_alike() {
    assert_alike(101, 60, Sizes::Large);
}

/// FNV-1a over all words: a change of the generator changes the sample and every noted seed.
fn fingerprint(seed: u64, count: u64, sizes: Sizes) -> u64 {
    let mut hash = 0xCBF2_9CE4_8422_2325u64;
    for index in 0..count {
        for word in case(seed, index, sizes).words {
            for byte in word.to_le_bytes() {
                hash = (hash ^ u64::from(byte)).wrapping_mul(0x0100_0000_01B3);
            }
        }
    }
    hash
}

#[test]
fn a_seed_gives_the_same_bundles() {
    assert_eq!(fingerprint(1, 300, Sizes::Mixed), FINGERPRINT_MIXED);
    assert_eq!(fingerprint(1, 10, Sizes::Large), FINGERPRINT_LARGE);
}

const FINGERPRINT_MIXED: u64 = 2_418_065_681_372_746_849;
const FINGERPRINT_LARGE: u64 = 3_126_920_933_600_834_562;

#[test]
fn the_sample_is_current() {
    let folder = Path::new(env!("CARGO_MANIFEST_DIR")).join("sample");
    let files = sample::files();
    let size = |of_listings: bool| -> usize {
        files
            .iter()
            .filter(|(name, _)| name.starts_with("listing-") == of_listings)
            .map(|(_, content)| content.len())
            .sum()
    };
    assert!(size(false) < 500_000 && size(true) < 1_500_000);
    for (name, content) in &files {
        let kept = std::fs::read(folder.join(name)).unwrap_or_else(|e| panic!("{name}: {e}; run the sample command"));
        assert!(kept == *content, "{name} is not what the sample command writes");
    }
    let kept = std::fs::read_dir(&folder).expect("the sample is there").count();
    assert_eq!(kept, files.len() + 1, "a file beside the sample and its README");
}

/// The crate of the program `listing` has 01's example as what it reads and prints in every check.
#[test]
fn the_program_holds_the_example() {
    let folder = Path::new(env!("CARGO_MANIFEST_DIR")).join("../crates/listing");
    let kept = |name: &str| std::fs::read(folder.join(name)).expect("the file is there");
    let file = columns::lines(&pieces::example());
    assert_eq!((kept("stdin"), kept("stdout")), (file.clone(), listing::printed(&file)));
}

/// Each item has a case, and no two cases are the same file.
#[test]
fn the_stored_listings_show_every_item() {
    let cases = stored::cases();
    for item in stored::items() {
        assert!(cases.iter().any(|case| case.shows().contains(&item)), "no listing shows {item}");
    }
    let files: BTreeSet<&[u8]> = cases.iter().map(|case| case.file.as_slice()).collect();
    assert_eq!(files.len(), cases.len());
}

/// Reads one sample file as a replay does: a stream of numbers.
#[test]
fn the_sample_replays() {
    let mut cases = 0;
    for (name, content) in sample::files().iter().filter(|(name, _)| name.starts_with("compile-")) {
        let text = std::str::from_utf8(content).expect("digits");
        let mut numbers = text.split_ascii_whitespace().map(|digits| digits.parse::<u64>().expect("a number"));
        let mut next = || numbers.next().unwrap_or_else(|| panic!("{name} ends early"));
        for _ in 0..next() {
            let words: Vec<u64> = (0..next()).map(|_| next()).collect();
            let lengths: areas::Lengths = std::array::from_fn(|_| next() as usize);
            let reply: Vec<u64> = (0..areas::REPLY_WORDS).map(|_| next()).collect();
            let mut memory = areas::Memory::new(&lengths, 1);
            let met: areas::Reply = Model.compile(&words, memory.lend()).reply.into();
            assert_eq!(met.words().to_vec(), reply);
            for i in 0..AREAS {
                let mut expected: Vec<u64> = (0..next()).map(|_| next()).collect();
                expected.resize(lengths[i], 0);
                assert_eq!(memory.area(i), expected);
            }
            cases += 1;
        }
        assert_eq!(numbers.next(), None);
    }
    assert!(cases > 100);
}

/// A side that is wrong in one word must be caught.
struct Wrong;

impl Side for Wrong {
    fn name(&self) -> &str {
        "a wrong side"
    }

    fn compile<'a>(&mut self, words: &[u64], mut lent: areas::Lent<'a>) -> Answered<'a> {
        let reply = Model.compile(words, lent.again()).reply;
        let (areas, _) = lent.parts();
        if let Some(last) = areas[0].last_mut() {
            *last ^= 1;
        }
        Answered { reply, areas: areas.map(|area| &*area) }
    }
}

#[test]
fn a_wrong_side_is_caught_and_the_right_one_is_not() {
    let mut random = Random::new(3);
    for index in 0..200 {
        let words = case(7, index, Sizes::Mixed).words;
        let chosen = lengths(&mut random, &compile(&words, &UNLIMITED).peaks());
        assert!(judge_side(&mut Model, &words, &chosen).is_ok());
        assert_eq!(judge_side(&mut Wrong, &words, &chosen).is_err(), chosen[0] > 0);
    }
}

#[test]
fn shrinking_keeps_what_matters() {
    // The smallest bundle with a loop: document, function, for, name, enumerable.
    let with_loop =
        |words: &[u64]| compile(words, &UNLIMITED).reply.row == 0 && words.chunks(4).any(|record| record[0] == 24);
    let found = (0..500).map(|index| case(9, index, Sizes::Mixed).words).find(|words| with_loop(words));
    assert_eq!(shrink(&found.expect("some bundle has a loop"), with_loop).len() / 4, 5);
}
