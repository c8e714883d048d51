//! Bundles broken on purpose: each tree rule, words, and the length. Where the way of breaking says
//! which record is at fault, the case says so.

use crate::generate::Case;
use crate::random::Random;
use crate::records::{flatten, kind, line_and_column, position, records, words, Node, Record, MAX_PLACE, MAX_TEXT, RECORD_WORDS};
use crate::shape::check;
use std::collections::BTreeSet;

const BAD_LENGTH: u64 = 2;
const BAD_SHAPE: u64 = 3;

pub fn damage(random: &mut Random, documents: Vec<Node>) -> Case {
    let whole = flatten(&documents);
    if whole.is_empty() || check(&whole).is_err() {
        return Case { words: whole, expected: None };
    }
    match random.below(13) {
        0..=3 => field(random, &whole),
        12 => this_number(random, &whole),
        4..=6 => tree(random, documents),
        10 | 11 => arity(random, documents),
        7 => cut(random, whole),
        8 => shuffled(random, &whole),
        _ => bits(random, whole),
    }
}

/// Words that kept the tree rules, broken one way or another.
pub fn damaged_words(random: &mut Random, whole: &[u64]) -> Vec<u64> {
    let made = match random.below(5) {
        0 => cut(random, whole.to_vec()),
        1 => shuffled(random, whole),
        2 => bits(random, whole.to_vec()),
        _ => field(random, whole),
    };
    made.words
}

/// A record of any kind that is there, rare kinds as likely as common ones.
fn some_record(random: &mut Random, list: &[Record]) -> usize {
    let kinds: Vec<u64> = list.iter().map(|r| r.kind).collect::<BTreeSet<_>>().into_iter().collect();
    let kind = random.pick(&kinds);
    let places: Vec<usize> = (0..list.len()).filter(|&at| list[at].kind == kind).collect();
    random.pick(&places)
}

/// One of several 41s with another number: it is at fault, or the second where it is the first.
fn this_number(random: &mut Random, whole: &[u64]) -> Case {
    let mut list = records(whole);
    let places: Vec<usize> = (0..list.len()).filter(|&at| list[at].kind == kind::THIS_PARAMETER).collect();
    if places.len() < 2 {
        return field(random, whole);
    }
    let which = random.index(places.len());
    let r = &mut list[places[which]];
    r.value = if r.value == MAX_TEXT { 1 } else { r.value + 1 };
    Case { words: words(&list), expected: Some((BAD_SHAPE, places[which.max(1)] as u64)) }
}

/// One field of one record out of its range: that record is at fault.
fn field(random: &mut Random, whole: &[u64]) -> Case {
    let mut list = records(whole);
    let at = some_record(random, &list);
    let count = list.len() as u64;
    let r = &mut list[at];
    let mut known = true;
    match random.below(9) {
        0 => r.kind = random.pick(&[0, 2, 9, 18, 19, 26, 29, 48, 50, 1 << 32, u64::MAX, 257, 295]),
        1 => r.span = 0,
        2 => r.span = random.pick(&[count + 1, u64::MAX, 1 << 32, u64::MAX - at as u64, (1 << 62) + r.span]),
        3 if kind::has_no_position(r.kind) => r.position = random.pick(&[1, 1 << 32, u64::MAX]),
        3 => {
            let (line, column) = line_and_column(r.position);
            let far = MAX_PLACE + 1;
            r.position = random.pick(&[
                position(line, far),
                position(far, column),
                position(0, u64::from(u32::MAX)),
                position(line, u64::from(u32::MAX)),
                u64::MAX,
                1 << 63,
            ]);
        }
        4 if kind::holds_text(r.kind) => r.value = random.pick(&[0, MAX_TEXT + 1, u64::MAX, r.value | 1 << 40]),
        4 => {
            let limit = match r.kind {
                kind::BOOLEAN => 1,
                kind::PREFIX => 2,
                kind::INFIX => 19,
                kind::INTEGER | kind::FLOAT => return Case { words: whole.to_vec(), expected: None },
                _ => 0,
            };
            r.value = random.pick(&[limit + 1, limit + 2, u64::MAX, 1 << 32]);
        }
        // What follows may leave a good tree, or put another record at fault.
        5 => {
            known = false;
            r.kind = random.pick(&kind::ALL);
        }
        6 => {
            known = false;
            r.span = if random.chance(500) { r.span + 1 } else { r.span - 1 };
        }
        7 => {
            known = false;
            r.value = random.below(25);
        }
        _ => {
            known = false;
            r.position = random.pick(&[0, 1, position(0, MAX_PLACE), position(MAX_PLACE, 0), position(MAX_PLACE, MAX_PLACE)]);
        }
    }
    // A span that is too long stops the parent's hop, so the record itself is at fault.
    Case { words: words(&list), expected: known.then_some((BAD_SHAPE, at as u64)) }
}

/// A path to some node, by child numbers; the first is the document.
fn path(random: &mut Random, documents: &[Node]) -> Vec<usize> {
    let mut out = vec![random.index(documents.len())];
    let mut node = &documents[out[0]];
    while !node.children.is_empty() && random.chance(850) {
        let child = random.index(node.children.len());
        out.push(child);
        node = &node.children[child];
    }
    out
}

fn at_path<'a>(documents: &'a mut [Node], path: &[usize]) -> &'a mut Node {
    let mut node = &mut documents[path[0]];
    for &child in &path[1..] {
        node = &mut node.children[child];
    }
    node
}

/// The tree changed and spans made anew: children missing, too many, of another kind, out of order.
fn tree(random: &mut Random, mut documents: Vec<Node>) -> Case {
    let path = path(random, &documents);
    let spare = Node::leaf(random.pick(&kind::ALL), 0, random.below(4));
    let other_this = random.between(1, 50);
    let action = random.below(7);
    let (first, second) = (random.next() as usize, random.next() as usize);
    let node = at_path(&mut documents, &path);
    let count = node.children.len();
    match action {
        0 if count > 0 => drop(node.children.remove(first % count)),
        1 => node.children.insert(first % (count + 1), spare),
        2 if count > 0 => node.children[first % count] = spare,
        3 if count > 1 => node.children.swap(first % count, second % count),
        4 if count > 0 => {
            let twin = node.children[first % count].clone();
            node.children.insert(second % (count + 1), twin);
        }
        5 => {
            let parameter = Node::leaf(kind::THIS_PARAMETER, 0, other_this);
            node.children.insert(first % (count + 1), parameter);
        }
        _ => node.children.truncate(first % (count + 1)),
    }
    Case { words: flatten(&documents), expected: None }
}

/// Index of the record at a path.
fn index_of(documents: &[Node], path: &[usize]) -> u64 {
    let mut list = documents;
    let mut index = 0;
    for (depth, &child) in path.iter().enumerate() {
        index += list[..child].iter().map(Node::size).sum::<usize>() + usize::from(depth > 0);
        list = &list[child].children;
    }
    index as u64
}

/// A child less than is due: the parent is at fault. A child more than there may be: that child is.
fn arity(random: &mut Random, mut documents: Vec<Node>) -> Case {
    let path = path(random, &documents);
    let index = index_of(&documents, &path);
    let more = random.chance(500);
    let which = random.next() as usize;
    let node = at_path(&mut documents, &path);
    let count = node.children.len();
    let (least, most) = match node.kind {
        kind::APPLY | kind::INFIX | kind::INSTANCE_GET | kind::INDEX_GET => (2, 2),
        kind::EXPRESSION | kind::PREFIX => (1, 1),
        kind::IF => (2, 3),
        kind::FOR => (2, usize::MAX),
        kind::CALL => (1, usize::MAX),
        kind::LOCAL_DEFINITION | kind::INCLUDE | kind::LOCAL => (count, usize::MAX),
        kind::RETURN..=kind::RESCUE | kind::IDENTIFIER..=kind::BOOLEAN | kind::NAME | kind::THIS_PARAMETER => (0, 0),
        kind::OTHER_TOKEN | kind::ABSENT => (0, 0),
        _ => (0, usize::MAX),
    };
    let mut expected = None;
    if more && most != usize::MAX {
        node.children.truncate(most);
        while node.children.len() < most {
            node.children.push(Node::leaf(kind::BLOCK, 0, 0));
        }
        let place = index + node.size() as u64;
        node.children.push(Node::leaf(kind::NULL, 0, 0));
        expected = Some((BAD_SHAPE, place));
    } else if least > 0 && count >= least {
        // One less than due, whatever the kinds of those that stay.
        node.children.truncate(least);
        node.children.remove(which % least);
        expected = Some((BAD_SHAPE, index));
    }
    Case { words: flatten(&documents), expected }
}

fn cut(random: &mut Random, mut whole: Vec<u64>) -> Case {
    if random.chance(300) {
        let more = random.between(1, 9);
        for _ in 0..more {
            let word = random.pick(&[0, 1, u64::MAX, 25, 40]);
            whole.push(word);
        }
    } else {
        whole.truncate(random.index(whole.len()));
    }
    let odd = whole.len() % RECORD_WORDS != 0;
    Case { words: whole, expected: odd.then_some((BAD_LENGTH, 0)) }
}

/// Records taken out, doubled or exchanged, with spans as they were.
fn shuffled(random: &mut Random, whole: &[u64]) -> Case {
    let mut list = records(whole);
    let (a, b) = (random.index(list.len()), random.index(list.len()));
    match random.below(4) {
        0 => drop(list.remove(a)),
        1 => list.insert(b, list[a]),
        2 => list.swap(a, b),
        _ => list.reverse(),
    }
    Case { words: words(&list), expected: None }
}

fn bits(random: &mut Random, mut whole: Vec<u64>) -> Case {
    for _ in 0..random.between(1, 3) {
        let at = random.index(whole.len());
        whole[at] ^= 1 << random.pick(&[0, 1, 2, 3, 4, 5, 6, 16, 20, 31, 32, 63]);
    }
    Case { words: whole, expected: None }
}
