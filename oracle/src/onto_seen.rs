//! What a comparison of grown programs has seen.

use std::collections::BTreeMap;

#[derive(Clone, Debug, Default)]
pub struct Seen {
    /// Sequences, and those that ended with a program of so many bundles.
    pub sequences: u64,
    pub ended: BTreeMap<u64, u64>,
    /// Deliveries compared with the Rust, by the bundles in them.
    pub grown: BTreeMap<u64, u64>,
    /// Refusals by row, and deliveries with a refusal of that row since the one before.
    pub refused: BTreeMap<u64, u64>,
    pub refitted: BTreeMap<u64, u64>,
    pub trials: u64,
    pub commits: u64,
    /// Deliveries that marked a standing text, gave a standing method another function, added no book.
    pub marked: u64,
    pub replaced: u64,
    pub nothing_added: u64,
    /// Row 9 by area.
    pub full: BTreeMap<u64, u64>,
    /// Row 7 where the Rust keeps more than the book's file; other functions of methods or another entry point too.
    pub half_books: u64,
    pub half_changed: u64,
    /// Bundles that the Rust can not hold, and those in which `emit_return` panics.
    pub inexpressible: u64,
    pub panicked: u64,
    /// Calls of a library on the same programs, and bundles laid on the program that its side keeps.
    pub asked: u64,
    pub kept: u64,
    pub differences: u64,
    pub first: Option<String>,
}

impl Seen {
    pub fn programs(&self) -> u64 {
        self.grown.values().sum()
    }

    pub fn print(&self) {
        println!("sequences {}, ended by bundles {:?}", self.sequences, self.ended);
        println!("grown programs compared {}, by bundles {:?}", self.programs(), self.grown);
        println!("refusals by row {:?}, row 9 by area {:?}", self.refused, self.full);
        println!("deliveries after a refusal of row {:?}", self.refitted);
        println!("trials {}, commits {}", self.trials, self.commits);
        println!(
            "deliveries that marked a standing text {}, gave a standing method another function {}, added no book {}",
            self.marked, self.replaced, self.nothing_added
        );
        println!(
            "half books of the Rust {}, of these with what stood changed {}; bundles it can not hold {}, its panic {}",
            self.half_books, self.half_changed, self.inexpressible, self.panicked
        );
        if self.asked > 0 {
            println!("calls of the library {}, bundles on the program that is kept {}", self.asked, self.kept);
        }
        println!("differences {}", self.differences);
    }
}
