//! The ranges of 01's tree rules, record by record, over every kind: the last value that is right and
//! the first that is not.

use oracle::pieces::{bench, more, requests};
use oracle::records::{kind, records, words, Record};
use oracle::shape::check;
use std::collections::BTreeSet;

/// Kinds with the least and the greatest value (01, "The tree"); any 64 bits for 33 and 34.
const VALUES: [(&[u64], u64, u64); 6] = [
    (&[1, 11, 12, 13, 14, 15, 16, 30, 35, 40, 41], 1, 1_048_575),
    (&[10, 17, 20, 21, 22, 23, 24, 25, 31, 32, 37, 42, 43, 44, 45, 46, 47, 49], 0, 0),
    (&[33, 34], 0, u64::MAX),
    (&[36], 0, 1),
    (&[38], 0, 2),
    (&[39], 0, 19),
];

const WITHOUT_POSITION: [u64; 8] = [1, 10, 17, 20, 25, 42, 43, 49];

/// Whether the record with this index is answered to be at fault after the change.
fn at_fault(list: &[Record], at: usize, change: impl Fn(&mut Record)) -> bool {
    let mut changed = list.to_vec();
    change(&mut changed[at]);
    match check(&words(&changed)) {
        Ok(_) => false,
        Err(refusal) => {
            assert_eq!(refusal, (3, at as u64), "another record is at fault");
            true
        }
    }
}

fn good_pieces() -> Vec<Vec<Record>> {
    let all = [bench(), more(), requests()].concat();
    all.into_iter().filter(|(_, words)| check(words).is_ok()).map(|(_, words)| records(&words)).collect()
}

#[test]
fn every_kind_has_its_values() {
    let mut met = BTreeSet::new();
    for list in good_pieces() {
        // One number for all 41s: changing one of several is another rule.
        let lone_this = list.iter().filter(|r| r.kind == kind::THIS_PARAMETER).count() <= 1;
        for (at, r) in list.iter().enumerate() {
            let (_, least, greatest) = VALUES.iter().find(|(kinds, ..)| kinds.contains(&r.kind)).expect("a kind of 01");
            if r.kind == kind::THIS_PARAMETER && !lone_this {
                continue;
            }
            met.insert(r.kind);
            for value in [*least, *greatest] {
                assert!(!at_fault(&list, at, |r| r.value = value), "kind {} value {value}", r.kind);
            }
            for value in [least.checked_sub(1), greatest.checked_add(1), Some(u64::MAX)].into_iter().flatten() {
                let out = value < *least || value > *greatest;
                assert_eq!(at_fault(&list, at, |r| r.value = value), out, "kind {} value {value}", r.kind);
            }
        }
    }
    assert_eq!(met.len(), kind::ALL.len());
}

#[test]
fn every_kind_has_its_positions() {
    for list in good_pieces() {
        for (at, r) in list.iter().enumerate() {
            let place = if WITHOUT_POSITION.contains(&r.kind) { 0 } else { 99_999_999 };
            for (line, column) in [(0, 0), (0, place), (place, 0), (place, place)] {
                assert!(!at_fault(&list, at, |r| r.position = line << 32 | column), "kind {}", r.kind);
            }
            for (line, column) in [(0, place + 1), (place + 1, 0), (0, 0xFFFF_FFFF), (place, place + 1), (0xFFFF_FFFF, 0xFFFF_FFFF)] {
                assert!(at_fault(&list, at, |r| r.position = line << 32 | column), "kind {}", r.kind);
            }
        }
    }
}

#[test]
fn no_span_is_0_or_passes_its_parent() {
    for list in good_pieces() {
        for at in 0..list.len() {
            let room = (list.len() - at) as u64;
            assert!(at_fault(&list, at, |r| r.span = 0));
            assert!(at_fault(&list, at, |r| r.span = room + 1));
            assert!(at_fault(&list, at, |r| r.span = u64::MAX));
        }
    }
}

#[test]
fn no_other_kind_is_known() {
    for list in good_pieces() {
        for at in 0..list.len() {
            for kind in (0..60).filter(|kind| !kind::ALL.contains(kind)).chain([256 + list[at].kind, u64::MAX]) {
                assert!(at_fault(&list, at, |r| r.kind = kind), "kind {kind}");
            }
        }
    }
}
