//! All small books laid after each other: the reading of onto.rs held against the Rust (`onto --small`).

use crate::onto::{Lent, Reading};
use crate::onto_grown::{Look, Ours, Sequence};
use crate::onto_seen::Seen;
use crate::random::Random;
use crate::records::{flatten, kind, Node, MAIN};
use crate::standing_calls::{Program, ROOMY};

/// Definitions that have to do with another book's: names 4 to 6 and 9 meet, 8 and 12 are aliases, 900 is nowhere.
fn small_definitions() -> Vec<Node> {
    let leaf = |kind, value| Node::leaf(kind, 0, value);
    let name = |text| leaf(kind::NAME, text);
    let does = |expression| Node::new(kind::EXPRESSION, 0, 0, vec![expression]);
    let function = |kind, text, value| Node::new(kind, 0, text, vec![does(value)]);
    let include = |file, public, alias| Node::new(kind::INCLUDE, 0, file, vec![name(public), name(alias)]);
    let implement = |model, method| {
        let method = Node::new(kind::FUNCTION, 0, method, vec![leaf(kind::THIS_PARAMETER, 7)]);
        Node::new(kind::IMPLEMENT, 0, model, vec![method])
    };
    let apply = |source, target| Node::new(kind::APPLY, 0, 0, vec![name(source), name(target)]);
    let local = |value| Node::new(kind::LOCAL_DEFINITION, 0, 0, vec![name(9), value]);
    let half = 0.5f64.to_bits();
    vec![
        Node::new(kind::PUBLIC_MODEL, 0, 4, vec![name(9)]),
        leaf(kind::MODEL, 8),
        implement(4, 5),
        implement(8, 5),
        apply(4, 8),
        apply(8, 4),
        function(kind::PUBLIC_FUNCTION, 6, leaf(kind::STRING, 9)),
        function(kind::FUNCTION, MAIN, leaf(kind::IDENTIFIER, 9)),
        function(kind::FUNCTION, 6, leaf(kind::FLOAT, half)),
        local(leaf(kind::FLOAT, half)),
        local(leaf(kind::STRING, 9)),
        include(2, 4, 8),
        include(2, 6, 9),
        include(3, 4, 8),
        implement(900, 5),
    ]
}

/// Every list of up to so many of the definitions, the short ones first.
fn bodies(definitions: &[Node], most: usize) -> Vec<Vec<Node>> {
    let mut out: Vec<Vec<Node>> = vec![Vec::new()];
    let mut from = 0;
    for _ in 0..most {
        let end = out.len();
        for at in from..end {
            for definition in definitions {
                let longer = [out[at].clone(), vec![definition.clone()]].concat();
                out.push(longer);
            }
        }
        from = end;
    }
    out
}

fn tree(file: u64, body: &[Node]) -> Vec<u64> {
    flatten(&[Node::new(kind::DOCUMENT, 0, file, body.to_vec())])
}

/// Whether book 2 with these definitions is delivered where nothing stands.
fn is_delivered(body: &[Node]) -> bool {
    let least = Program::least();
    let lent = Lent { areas: &least.entries, totals: &least.totals };
    Reading::default().needs(&tree(2, body), false, lent, ROOMY).1.is_none()
}

/// A book laid after another, in both modes: book 2 with up to two such definitions where it is delivered, book 3 with up to
/// `most`; then a third, 5, that includes 2, gives the model of 2 a method and reads 9, whatever became of the second.
pub fn compare_small(reading: Reading, look: Look, most: usize, mut ours: Option<Ours>) -> Seen {
    let definitions = small_definitions();
    let third = [11, 3, 7].map(|at| definitions[at].clone());
    let seconds = bodies(&definitions, most);
    let mut seen = Seen::default();
    for (index, first) in (0..).zip(bodies(&definitions, 2)).filter(|(_, body)| is_delivered(body)) {
        for (other, second) in (0..).zip(&seconds) {
            for strict in [false, true] {
                seen.sequences += 1;
                let sequence = Sequence::new(Random::for_case(index, other), reading, look, &mut seen, 7);
                let mut sequence = sequence.with(ours.as_mut().map(Ours::again));
                let trees = [tree(2, &first), tree(3, second), tree(5, &third)];
                let laid = trees.iter().try_for_each(|tree| sequence.bundle(tree, strict));
                if let Err(message) = laid.and_then(|()| sequence.ends()) {
                    seen.differences += 1;
                    seen.first.get_or_insert(format!("books {index} and {other}: {message}"));
                }
            }
        }
    }
    seen
}
