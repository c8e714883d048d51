//! The way of a third side's call, on one of this test that asks the model: what goes in arrives, what
//! comes back is read, and a call or a view that is wrong in one place is seen.

use clover_back_end::Reply;
use oracle::areas::{Answer, Delivery, ErrorAnswer, Lent, Parts, AREAS};
use oracle::compare::{compare, judge_side, Model, Plan, Side};
use oracle::generate::Sizes;
use oracle::hostile::Narrow;
use oracle::pieces::example;
use oracle::views::{view, Answered, Viewed};

type SpoilCall = fn(&mut Reply, &mut Parts);
type SpoilView = fn(&mut Viewed);

/// The model's call with a fault, or with one in what the views say.
struct StandIn {
    call: SpoilCall,
    view: SpoilView,
}

const RIGHT: StandIn = StandIn { call: |_, _| {}, view: |_| {} };

impl Side for StandIn {
    fn name(&self) -> &str {
        "a stand-in"
    }

    fn compile<'a>(&mut self, words: &[u64], mut lent: Lent<'a>) -> Answered<'a> {
        let mut reply = Model.compile(words, lent.again()).reply;
        let mut parts = lent.parts();
        (self.call)(&mut reply, &mut parts);
        Answered { reply, areas: parts.0.map(|area| &*area) }
    }

    fn view(&self, answered: &Answered) -> Result<Viewed, String> {
        let mut viewed = view(answered)?;
        (self.view)(&mut viewed);
        Ok(viewed)
    }
}

fn differences(mut side: StandIn, seed: u64, count: u64, sizes: Sizes) -> u64 {
    let (tally, _) = compare(Plan { seed, count, sizes, stop: false, head_includes: false }, Some(&mut side));
    assert!(tally.calls.iter().sum::<u64>() >= 3 * count || tally.differences > 0, "{tally:?}");
    if tally.differences == 0 && count >= 1000 {
        assert!(tally.calls_full.iter().all(|&met| met > 0), "{tally:?}");
    }
    tally.differences
}

#[test]
fn a_right_call_is_alike() {
    assert_eq!(differences(RIGHT, 31, 2000, Sizes::Mixed), 0);
    assert_eq!(differences(RIGHT, 32, 10, Sizes::Large), 0);
}

#[test]
fn wrong_calls_are_seen() {
    let faults: [SpoilCall; 11] = [
        |_, (areas, _)| {
            if let Some(last) = areas[11].last_mut() {
                *last ^= 1;
            }
        },
        // A word beside the memory; the oracle's has some there.
        |_, (_, rest)| unsafe { *rest.as_mut_ptr().add(rest.len()) = 0 },
        // A word behind the areas.
        |_, (_, rest)| {
            if let Some(last) = rest.last_mut() {
                *last = 1;
            }
        },
        |reply, _| reply.totals.entry_point ^= u64::from(reply.number == 0),
        |reply, _| reply.place ^= u64::from(reply.number == 9),
        |reply, _| reply.place ^= u64::from(reply.number == 0),
        |reply, _| reply.totals.errors ^= u64::from(reply.number != 0),
        |reply, _| reply.totals.bundles ^= u64::from(reply.number == 0),
        |reply, _| reply.totals.bundles ^= u64::from(reply.number != 0),
        |_, (areas, _)| {
            if let (true, Some(first)) = (!areas[8].is_empty(), areas[9].first_mut()) {
                *first = 1;
            }
        },
        |_, (areas, _)| areas.swap(8, 9),
    ];
    for call in faults {
        assert!(differences(StandIn { call, ..RIGHT }, 33, 60, Sizes::Mixed) > 0);
    }
}

/// Constants that the area has room for: with every area exactly full those of the pool.
fn constants(areas: &[&mut [u64]; AREAS]) -> usize {
    areas[1].len() / 3
}

#[test]
fn wrong_tables_are_seen() {
    let faults: [SpoilCall; 6] = [
        // A slot left, the first, the last, or one between, where the table is in use to the end.
        |_, (areas, table)| {
            if table.len() > constants(areas) {
                table[0] = 1;
            }
        },
        |_, (areas, table)| {
            if table.len() > constants(areas) {
                table[table.len() - 1] = 3;
            }
        },
        |reply, (areas, table)| {
            if reply.number == 9 && table.len() == 2 * constants(areas) && !table.is_empty() {
                table[table.len() / 2] = 2;
            }
        },
        // The slot behind the last.
        |_, (areas, table)| {
            if table.len() == constants(areas) + 1 {
                unsafe { *table.as_mut_ptr().add(table.len()) = 1 }
            }
        },
        // An answer that depends on the table: one that is just long enough, and one that is not.
        |reply, (areas, table)| {
            let long_enough = reply.number == 0 && table.len() == constants(areas) + 1;
            reply.totals.constants += u64::from(long_enough);
        },
        |reply, (areas, table)| {
            if reply.number == 0 && table.len() == constants(areas) && !table.is_empty() {
                areas[1][1] ^= 1;
            }
        },
    ];
    for (at, call) in faults.into_iter().enumerate() {
        assert!(differences(StandIn { call, ..RIGHT }, 33, 60, Sizes::Mixed) > 0, "fault {at}");
    }
}

/// Spoils a delivery's views.
fn on_delivery(viewed: &mut Viewed, spoil: fn(&mut Delivery)) {
    if let Answer::Delivered(delivery) = &mut viewed.answer {
        spoil(delivery);
    }
}

fn on_refusal(viewed: &mut Viewed, spoil: fn(&mut u64, &mut u64, &mut Vec<ErrorAnswer>)) {
    if let Answer::Refused { row, place, errors } = &mut viewed.answer {
        spoil(row, place, errors);
    }
}

#[test]
fn wrong_views_are_seen() {
    let faults: [SpoilView; 22] = [
        |viewed| viewed.reply.totals[8] += u64::from(viewed.reply.row == 0),
        |viewed| viewed.reply.globals += u64::from(viewed.reply.row == 0),
        |viewed| viewed.reply.bundles += u64::from(viewed.reply.row == 0),
        |viewed| on_delivery(viewed, |d| d.functions.iter_mut().for_each(|f| f.parameters = f.locals)),
        |viewed| on_delivery(viewed, |d| d.functions.iter_mut().for_each(|f| f.locals = f.parameters)),
        |viewed| on_delivery(viewed, |d| d.functions.iter_mut().for_each(|f| f.rescue = 0)),
        |viewed| on_delivery(viewed, |d| d.functions.iter_mut().for_each(|f| f.instance = false)),
        |viewed| on_delivery(viewed, |d| d.functions.iter_mut().for_each(|f| f.file = 0)),
        |viewed| on_delivery(viewed, |d| d.functions.iter_mut().for_each(|f| f.code.truncate(1))),
        |viewed| on_delivery(viewed, |d| d.functions.iter_mut().for_each(|f| f.code.iter_mut().for_each(|c| c.1 = 0))),
        |viewed| on_delivery(viewed, |d| d.constants.iter_mut().for_each(|c| c.1 &= 0xFFFF_FFFF)),
        |viewed| on_delivery(viewed, |d| d.globals.truncate(1)),
        |viewed| on_delivery(viewed, |d| d.models.iter_mut().for_each(|m| m.properties.reverse())),
        |viewed| on_delivery(viewed, |d| d.models.iter_mut().for_each(|m| m.methods.clear())),
        |viewed| on_delivery(viewed, |d| d.context.iter_mut().for_each(|c| c.2 = c.2.or(Some(0)))),
        |viewed| on_delivery(viewed, |d| d.public.values_mut().for_each(|constant| *constant = 0)),
        |viewed| on_delivery(viewed, |d| d.entry_point = 0),
        |viewed| on_delivery(viewed, |d| d.books.reverse()),
        |viewed| on_refusal(viewed, |row, _, _| *row = (*row).min(8)),
        |viewed| on_refusal(viewed, |_, place, _| *place = 0),
        |viewed| on_refusal(viewed, |_, _, errors| errors.truncate(1)),
        |viewed| on_refusal(viewed, |_, _, errors| errors.iter_mut().for_each(|error| error[3] = 0)),
    ];
    for (at, view) in faults.into_iter().enumerate() {
        assert!(differences(StandIn { view, ..RIGHT }, 33, 60, Sizes::Mixed) > 0, "fault {at}");
    }
}

/// Two views that say other things of one answer are an error by themselves.
#[test]
fn views_must_agree() {
    let mut memory = oracle::areas::Memory::new(&[100; AREAS], 0);
    let mut answered = Model.compile(&example(), memory.lend());
    assert!(view(&answered).is_ok());
    answered.reply.totals.global_dependencies += 1;
    assert!(view(&answered).is_err());
}

#[test]
fn a_call_on_a_small_stack() {
    let mut side = RIGHT;
    let mut narrow = Narrow { side: &mut side, stack: 1 << 20, seconds: 0.0 };
    let reply = judge_side(&mut narrow, &example(), &[100; AREAS]).expect("alike");
    assert_eq!((reply.row, reply.totals[0]), (0, 6));
}
