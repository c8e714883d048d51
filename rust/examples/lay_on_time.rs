//! How long a small book takes that is laid onto a large program, beside the program check alone: the call reads the program once.
//!
//!     cargo run --release --offline --manifest-path rust/Cargo.toml --example lay_on_time

use std::time::Instant;

use clover_back_end::{check_program, Mode, StandingProgram};

/// The records of a book: `functions` functions of `statements` statements, each an integer.
fn book(file: u64, functions: u64, statements: u64) -> Vec<u64> {
    let size = 1 + 2 * statements;
    let mut words = vec![1, 1 + functions * size, 0, file];
    for i in 0..functions {
        words.extend([14, size, (1 << 32) + 1, 2 + i]);
        for j in 0..statements {
            words.extend([25, 2, 0, 0, 33, 1, (1 << 32) + 1, j % 100]);
        }
    }
    words
}

fn main() {
    let mut program = StandingProgram::compiled(&book(2, 1000, 500), Mode::Present).expect("a book without errors");
    println!("code entries {}", program.totals().code);
    program.lay_on(&book(3, 1, 3), Mode::Present).expect("a small book");
    for file in 4..9 {
        let (memory, lengths) = program.memory();
        let began = Instant::now();
        check_program(memory, lengths, program.totals()).expect("a program");
        let check = began.elapsed();
        let tree = book(file, 1, 3);
        let began = Instant::now();
        program.lay_on(&tree, Mode::Present).expect("a small book");
        println!(
            "the check {:.2} ms, laying on {:.2} ms",
            check.as_secs_f64() * 1e3,
            began.elapsed().as_secs_f64() * 1e3
        );
    }
}
