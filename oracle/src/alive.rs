//! A second count of the names and breaks alive at a time, over the trees of a delivered bundle. The
//! Rust has no areas, so that areas 9 and 10 of the model would otherwise rest on one reading.

use crate::books::needed;
use crate::records::{kind, records, trees, Node};

/// Live entries now and at most.
#[derive(Clone, Copy, Default)]
struct Count {
    now: u64,
    most: u64,
}

impl Count {
    fn add(&mut self) {
        self.now += 1;
        self.most = self.most.max(self.now);
    }
}

#[derive(Default)]
struct Alive {
    names: Count,
    breaks: Count,
    loops: u64,
}

impl Alive {
    /// In a delivered bundle every definition of a name is new in its scope.
    fn scope(&mut self, work: impl FnOnce(&mut Alive)) {
        let before = self.names.now;
        work(self);
        self.names.now = before;
    }

    fn each(&mut self, nodes: &[Node]) {
        nodes.iter().for_each(|node| self.walk(node));
    }

    fn walk(&mut self, node: &Node) {
        let parts = &node.children;
        match node.kind {
            kind::NAME | kind::THIS_PARAMETER => self.names.add(),
            kind::FUNCTION | kind::PUBLIC_FUNCTION | kind::BLOCK => self.scope(|alive| alive.each(parts)),
            kind::BREAK if self.loops > 0 => self.breaks.add(),
            kind::FOR => self.scope(|alive| {
                let before = alive.breaks.now;
                alive.loops += 1;
                alive.walk(&parts[1]);
                alive.walk(&parts[0]);
                alive.each(&parts[2..]);
                alive.loops -= 1;
                alive.breaks.now = before;
            }),
            kind::IF => {
                self.walk(&parts[0]);
                parts[1..].iter().rev().for_each(|part| self.walk(part));
            }
            kind::INFIX => self.infix(node),
            _ => self.each(parts),
        }
    }

    /// Assign reads only the parts of its target; compound assign reads the target, then its parts.
    fn infix(&mut self, node: &Node) {
        let (left, right) = (&node.children[0], &node.children[1]);
        if node.value != 0 {
            self.walk(left);
        }
        self.walk(right);
        if matches!(node.value, 0 | 6..=10) {
            self.each(&left.children);
        }
    }
}

/// The greatest numbers of scope names and of breaks alive.
pub fn alive(words: &[u64]) -> (u64, u64) {
    let needed = needed(&records(words)).expect("a delivered bundle");
    let mut alive = Alive::default();
    for document in trees(words).expect("a delivered bundle") {
        if !needed.contains_key(&document.value) {
            continue;
        }
        for definition in &document.children {
            match definition.kind {
                kind::FUNCTION | kind::PUBLIC_FUNCTION => alive.walk(definition),
                kind::IMPLEMENT => alive.each(&definition.children),
                _ => {}
            }
        }
    }
    (alive.names.most, alive.breaks.most)
}
