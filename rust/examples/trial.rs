//! A bundle on trial: the totals that a program would have, beside those that it has, and then the commit.
//!
//!     cargo run --offline --manifest-path rust/Cargo.toml --example trial

use clover_back_end::records::Records;
use clover_back_end::{Mode, Position, Refusal, StandingProgram, Texts, Totals};

/// What the office looks at: the numbers of line 1 of a listing.
fn shown(totals: Totals) -> String {
    let Totals { functions, constants, models, context_locals, books, global_dependencies, .. } = totals;
    format!(
        "functions {functions}, constants {constants}, models {models}, top-level names {context_locals}, books {books}, \
         globals {global_dependencies}"
    )
}

fn main() -> Result<(), Refusal> {
    let mut texts = Texts::new();
    let (loads, factor) = (texts.intern("loads.clover"), texts.intern("factor"));
    let mut bundle = Records::new();
    bundle.document(loads, |book| {
        let body = book.public_function(factor);
        body.body(|body| body.expression(|slot| slot.float(1.35, Position::new(2, 5))));
    });
    let mut program = StandingProgram::compiled(bundle.words(), Mode::Present)?;
    println!("stands: {}", shown(program.totals()));

    let (snow, roof) = (texts.intern("snow.clover"), texts.intern("roof"));
    let mut addition = Records::new();
    addition.document(snow, |book| {
        book.include(loads, |names| names.name(factor, factor));
        book.function(roof).body(|body| body.expression(|slot| slot.identifier(factor)));
    });
    let trial = program.trial(addition.words(), Mode::Strict)?;
    println!("would be: {}", shown(trial.totals()));
    if trial.totals().global_dependencies > program.totals().global_dependencies {
        println!("no: it needs another global");
        return Ok(());
    }
    program.commit(addition.words(), Mode::Strict, trial)?;
    println!("is: {}, of {} bundles", shown(program.totals()), program.totals().bundles);
    Ok(())
}
