//! The calls over the caller's own slices: what stands beside them stays, all of them is overwritten,
//! and the replies are the whole ones.
#![cfg(feature = "link")]

use clover_back_end::records::Records;
use clover_back_end::{calls, compile, Area, Areas, Checked, Converted, Position, Refusal, Reply, Text, Totals};
use clover_back_end::{AREAS, LINE_BYTES};

const STALE: u64 = u64::MAX;

/// File 2 with `function f() 7 end`; text 3 is `f`.
fn seven() -> Records {
    let mut tree = Records::new();
    tree.document(Text::from_number(2), |book| {
        let f = Text::from_number(3);
        book.function(f).body(|body| body.expression(|slot| slot.integer(7, Position::NONE)));
    });
    tree
}

/// Words before and behind the memory that no call may touch.
const BESIDE: usize = 8;

/// A call in stale memory of so many words, with words beside it that must stay; answers the reply and the memory.
fn called(lengths: [usize; AREAS], size: usize) -> (Reply, Vec<u64>) {
    let mut all = vec![STALE; size + 2 * BESIDE];
    let answer = calls::compile(seven().words(), lengths, &mut all[BESIDE..BESIDE + size]);
    assert!(answer.areas.iter().zip(lengths).all(|(area, length)| area.len() <= length));
    let reply = answer.reply;
    assert!(all[..BESIDE].iter().chain(&all[BESIDE + size..]).all(|&word| word == STALE));
    (reply, all[BESIDE..BESIDE + size].to_vec())
}

/// What `seven` compiles to.
fn delivered() -> Reply {
    let totals = Totals { code: 2, constants: 5, functions: 1, context_locals: 1, books: 1, ..Totals::default() };
    Reply { number: 0, place: 0, totals: Totals { bundles: 1, ..totals } }
}

fn full(area: Area) -> Reply {
    Reply { number: 9, place: area.number(), totals: Totals::default() }
}

#[test]
fn the_library_is_of_this_layout() {
    let linked = calls::version();
    assert_eq!((linked.version, linked.layout), (6, calls::LAYOUT));
}

#[test]
fn one_memory_has_all_areas() {
    let words = 41;
    let mut memory = vec![STALE; AREAS * words];
    let answer = calls::compile(seven().words(), [words; AREAS], &mut memory);
    assert_eq!(answer.reply, delivered());
    let mut areas = Areas::with_entries([41; AREAS]);
    let own = compile(seven().words(), &mut areas).expect("no refusal");
    let program = answer.program().expect("no refusal");
    assert_eq!(program.totals(), own.totals());
    assert!(Area::ALL.iter().all(|&area| program.words(area) == own.words(area)));
    assert_eq!(format!("{program:?}"), format!("{own:?}"));
    for (&area, lent) in Area::ALL.iter().zip(answer.areas) {
        assert_eq!(lent.len(), words);
        assert!(lent[program.words(area).len()..].iter().all(|&word| word == 0), "{area}");
    }
}

#[test]
fn words_left_over_are_zeroed() {
    let (reply, exact) = called([41; AREAS], 41 * AREAS);
    assert_eq!(reply, delivered());
    let (reply, longer) = called([41; AREAS], 41 * AREAS + 5);
    assert_eq!(reply, delivered());
    assert_eq!((&longer[..exact.len()], &longer[exact.len()..]), (&exact[..], &[0; 5][..]));
}

#[test]
fn lengths_that_pass_the_end_are_cut() {
    // The last area has one word, whatever its length says.
    let mut lengths = [41; AREAS];
    lengths[AREAS - 1] = usize::MAX;
    assert_eq!(called(lengths, 41 * 11 + 1).0, delivered());
    assert_eq!(called(lengths, 41 * 11).0, full(Area::Books));
    // All areas behind the constants are empty, and the books are listed first.
    assert_eq!(called([41; AREAS], 41 + 13), (full(Area::Books), vec![0; 41 + 13]));
    // Room for two constants, of three that any program has.
    assert_eq!(called([41; AREAS], 41 + 8), (full(Area::Constants), vec![0; 41 + 8]));
    assert_eq!(called([usize::MAX; AREAS], 1000), (full(Area::Constants), vec![0; 1000]));
}

#[test]
fn a_refusal_leaves_zeros() {
    let mut memory = vec![STALE; AREAS * 7];
    let answer = calls::compile(seven().words(), [7; AREAS], &mut memory);
    assert_eq!(answer.reply, full(Area::Constants));
    let refusal = answer.program().expect_err("five constants need 15 words");
    assert_eq!(refusal, Refusal::AreaFull { area: Area::Constants });
    assert!(memory.iter().all(|&word| word == 0));
}

#[test]
fn areas_of_no_length() {
    assert_eq!(called([0; AREAS], 0).0, full(Area::Constants));
    assert_eq!(called([0; AREAS], 100), (full(Area::Constants), vec![0; 100]));
    assert_eq!(called([usize::MAX; AREAS], 0).0, full(Area::Constants));
}

#[test]
fn converters_fill_what_they_are_lent() {
    let tree = seven();
    assert_eq!(calls::check(tree.words()), Checked { number: 0, place: 0 });
    assert_eq!(calls::check(&[7; 4]), Checked { number: 3, place: 0 });
    let mut file = [1; 4 * LINE_BYTES + 3];
    let converted = calls::records_to_columns(tree.words(), &mut file);
    assert_eq!(converted, Converted { number: 0, place: 0, total: 4 });
    assert_eq!(file[4 * LINE_BYTES..], [0; 3]);
    let mut words = [STALE; 18];
    assert_eq!(calls::columns_to_records(&file[..4 * LINE_BYTES], &mut words).records(), Ok(4));
    assert_eq!((&words[..16], &words[16..]), (tree.words(), &[0, 0][..]));
    let short = calls::columns_to_records(&file[..4 * LINE_BYTES], &mut words[..15]);
    assert_eq!(short, Converted { number: 9, place: 0, total: 0 });
    // The sixteenth word was not lent.
    assert_eq!((&words[..15], words[15]), (&[0; 15][..], 7));
    assert_eq!(short.records().expect_err("too short").to_string(), "area full: the output is too short");
}
