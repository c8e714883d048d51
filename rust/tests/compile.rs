//! The compile call of the linked library: 01's example, each row, and the rule books of `examples/`.
#![cfg(feature = "link")]

use clover_back_end::records::{Definitions, Filled, Function, Records, Slot, MAX_LEVEL};
use clover_back_end::{
    calls, columns_to_records, compile, compile_in, Area, Areas, Constant, ErrorKind, Infix, Instruction,
};
use clover_back_end::{Mode, OpCode, Position, Prefix, Program, Refusal, Text, AREAS};
use std::path::Path;

const NONE: Position = Position::NONE;

fn text(number: u64) -> Text {
    Text::from_number(number)
}

fn document(file: u64, inside: impl FnOnce(&mut Definitions)) -> Records {
    let mut tree = Records::new();
    tree.document(text(file), inside);
    tree
}

/// File 2 with function f, text 3.
fn body(inside: impl FnOnce(Function)) -> Records {
    document(2, |book| inside(book.function(text(3).at(Position::new(1, 10)))))
}

fn seven() -> Records {
    body(|f| f.body(|body| body.expression(|slot| slot.integer(7, NONE))))
}

fn refused(tree: &[u64]) -> Refusal {
    compile(tree, &mut Areas::with_entries([100; AREAS])).expect_err("a refusal")
}

#[test]
fn the_example_of_01() {
    let x = text(4);
    let tree = body(|f| {
        f.parameter(x.at(Position::new(1, 12))).body(|body| {
            body.expression(|slot| {
                let out = slot.if_expression().condition(|slot| slot.identifier(x.at(Position::new(2, 6))));
                out.then(|body| body.return_statement(Position::new(3, 5))).end()
            });
        });
    });
    let mut areas = Areas::for_tree(tree.words());
    let program = compile(tree.words(), &mut areas).expect("no refusal");
    let f = program.entry_point().expect("a function");
    let expected = [
        (OpCode::LocalGet, 0),
        (OpCode::JumpIf, 4),
        (OpCode::PushConstant, 0),
        (OpCode::Jump, 6),
        (OpCode::PushConstant, 0),
        (OpCode::Return, 0),
    ];
    let expected = expected.map(|(opcode, operand)| Instruction::new(opcode, operand));
    assert!(f.instructions().map(|(instruction, _)| instruction).eq(expected));
    assert_eq!((f.parameters(), f.locals(), f.name()), (1, 1, text(3)));
    assert_eq!(program.constant(3), Some(Constant::Function(0)));
    assert!(program.books().eq([text(2)]));
}

/// So many signs before a null.
fn signs(slot: Slot, levels: usize) -> Filled {
    if levels == 0 {
        return slot.null(NONE);
    }
    slot.prefix(Prefix::Not, NONE, |slot| signs(slot, levels - 1))
}

#[test]
fn rows_2_to_6() {
    assert_eq!(refused(&[1, 1, 0]), Refusal::BadLength);
    assert!(matches!(refused(&[]), Refusal::BadShape { record: 0, reason: Some(_) }));
    let deep = body(|f| f.body(|body| body.expression(|slot| signs(slot, MAX_LEVEL - 3))));
    assert_eq!(refused(deep.words()), Refusal::TooDeep { record: MAX_LEVEL as u64 });
    assert_eq!(refused(&[1, 1, 0, 2, 1, 1, 0, 2]), Refusal::BookTwice { record: 1 });
    let including = document(2, |book| book.include(text(8), |_| {}));
    assert_eq!(refused(including.words()), Refusal::BookMissing { file: text(8) });
    let far = document(2, |book| book.model(text(3).at(Position::new(1, Position::MOST + 1)), |_| {}));
    assert!(matches!(refused(far.words()), Refusal::BadShape { record: 1, reason: Some(_) }));
}

#[test]
fn rows_7_and_8_list_errors() {
    let assigned = body(|f| {
        f.body(|body| {
            body.expression(|slot| {
                let out = slot.infix(Infix::Assign, Position::new(2, 7)).left(|slot| slot.integer(1, NONE));
                out.right(|slot| slot.null(NONE))
            });
        });
    });
    let refusal = refused(assigned.words());
    let spelt = "book faulty: text 2 has errors\n  at (2, 7) near Assign - can not assign";
    assert_eq!(refusal.to_string(), spelt);
    let Refusal::BookFaulty { file, errors } = refusal else { panic!("{refusal}") };
    assert_eq!((file, errors[0].kind), (text(2), ErrorKind::CanNotAssign));
    let itself = refused(document(2, |book| book.include(text(2), |_| {})).words());
    assert_eq!(itself, Refusal::Ring { files: vec![text(2)] });
}

#[test]
fn row_11_names_the_include_and_the_name() {
    let mut tree = document(2, |book| {
        book.include(text(5), |names| {
            names.name(text(3), text(6));
            names.name(text(4), text(7));
        });
    });
    tree.document(text(5), |book| {
        book.public_function(text(3)).body(|_| {});
        book.function(text(4)).body(|_| {});
    });
    let mut areas = Areas::with_entries([100; AREAS]);
    compile(tree.words(), &mut areas).expect("the present mode delivers");
    let refusal = compile_in(Mode::Strict, tree.words(), &mut areas).expect_err("strict mode refuses");
    assert_eq!(refusal, Refusal::NameNotPublic { record: 1, name: Some(text(4)) });
    let spelt = "name not public: record 1, an include, lists text 4, which is not public in its file";
    assert_eq!((refusal.to_string().as_str(), refusal.row(), refusal.place()), (spelt, 11, 1));
}

#[test]
fn a_full_area_is_named_and_grown() {
    let tree = seven();
    let mut areas = Areas::with_entries([0; AREAS]);
    let mut grown = Vec::new();
    while let Err(refusal) = areas.compile(tree.words()) {
        let Refusal::AreaFull { area } = refusal else { panic!("{refusal}") };
        grown.push(area);
        areas.grow(area);
    }
    assert_eq!(areas.program().expect("delivered").functions().len(), 1);
    grown.sort();
    assert_eq!(grown, [Area::Code, Area::Constants, Area::Functions, Area::ContextLocals, Area::Books]);
}

#[test]
fn growing_ends_at_the_limit() {
    let tree = seven();
    let mut areas = Areas::with_entries([0; AREAS]);
    assert_eq!(areas.compile_growing(tree.words(), 10_000).expect("room").functions().len(), 1);
    let mut areas = Areas::with_entries([0; AREAS]);
    areas.grow(Area::Constants);
    let refusal = areas.compile_growing(tree.words(), areas.len()).map(|_| ()).expect_err("no room");
    assert!(matches!(refusal, Refusal::AreaFull { .. }), "{refusal}");
}

#[test]
fn areas_serve_again() {
    let mut areas = Areas::with_entries([100; AREAS]);
    let seven = seven();
    let code = compile(seven.words(), &mut areas).expect("no refusal").words(Area::Code).to_vec();
    compile(&[], &mut areas).expect_err("a refusal");
    assert!(areas.program().is_none());
    assert!(Area::ALL.iter().all(|&area| areas.words(area).iter().all(|&word| word == 0)));
    assert_eq!(compile(seven.words(), &mut areas).expect("no refusal").words(Area::Code), code);
}

/// The slots as a call left them.
fn slots(areas: &Areas) -> &[u64] {
    let (memory, lengths) = areas.memory();
    &memory[lengths.iter().sum()..]
}

#[test]
fn the_table_of_slots_is_the_areas_own() {
    // 200 integers, each twice: more constants than the first table has slots.
    let tree = body(|f| {
        f.body(|body| (0..400).for_each(|i| body.expression(|slot| slot.integer(i % 200, NONE))));
    });
    let mut entries = [1000; AREAS];
    entries[1] = 20;
    let mut areas = Areas::with_entries(entries);
    let constants = areas.compile_growing(tree.words(), 100_000).expect("room").constants().len();
    // null, true, false, the integers and the function.
    assert_eq!(constants, 204);
    assert_eq!((areas.entries(Area::Constants), areas.slots()), (256, 521));
    assert!(slots(&areas).len() == 521 && slots(&areas).iter().all(|&slot| slot == 0));

    // Whatever the table holds before a call, the call answers the same and leaves zeros, refused or not.
    let answered = areas.memory().0.to_vec();
    areas.lend().fill(u64::MAX);
    areas.compile(tree.words()).expect("no refusal");
    assert_eq!(areas.memory().0, answered);
    areas.lend().fill(1);
    areas.compile(&tree.words()[4..]).expect_err("no document");
    assert!(slots(&areas).iter().all(|&slot| slot == 0));

    // And the same program as without a table.
    let (lengths, words) = (areas.lengths(), areas.lengths().iter().sum::<usize>());
    let mut plain = vec![7; words];
    assert_eq!(calls::compile(tree.words(), lengths, &mut plain).reply.totals.constants, 204);
    assert_eq!(plain, answered[..words]);
}

// The listing of 01, so that every view is read.

struct Listing(String);

impl Listing {
    fn line(&mut self, section: u64, middle: &[u64], last: &str) {
        let field = |at: usize| middle.get(at).copied().unwrap_or(0);
        let numbers: String = (0..6).map(|at| format!("{:>8}", field(at))).collect();
        self.0 += &format!("{section:>4}{numbers}{last:>21}\n");
    }

    fn program(&mut self, program: &Program) {
        let totals = program.totals();
        let counts = [totals.functions, totals.constants, totals.models, totals.context_locals];
        self.line(
            1,
            &[&counts[..], &[totals.entry_point, totals.books]].concat(),
            &totals.global_dependencies.to_string(),
        );
        self.functions(program);
        program.functions().for_each(|function| self.instructions(&function));
        self.constants(program);
        self.models(program);
        let locals = (0..).zip(program.context_locals());
        let values = locals.filter_map(|(index, local)| Some([index, local.constant?]));
        values.for_each(|value| self.line(8, &value, "0"));
        program.global_dependencies().for_each(|constant| self.line(9, &[constant], "0"));
        let files = (0..).zip(program.books());
        files.for_each(|(index, file)| self.line(10, &[index], &file.number().to_string()));
    }

    fn functions(&mut self, program: &Program) {
        for f in program.functions() {
            let instance = u64::from(f.is_instance());
            let middle = [f.index(), f.parameters(), f.locals(), f.rescue_position(), instance, f.file()];
            self.line(2, &middle, &f.name().number().to_string());
        }
    }

    fn instructions(&mut self, function: &clover_back_end::Function) {
        for (index, (instruction, at)) in (0..).zip(function.instructions()) {
            let opcode = instruction.opcode().number();
            let middle = [function.index(), index, u64::from(at.line), u64::from(at.column), opcode];
            self.line(3, &middle, &instruction.operand().to_string());
        }
    }

    fn constants(&mut self, program: &Program) {
        for (index, constant) in (0..).zip(program.constants()) {
            let value = match constant {
                Constant::Integer(value) => value.to_string(),
                other => other.value().to_string(),
            };
            self.line(4, &[index, constant.kind()], &value);
        }
    }

    fn models(&mut self, program: &Program) {
        program.models().for_each(|m| self.line(5, &[m.index(), m.file()], &m.name().number().to_string()));
        let properties = program.models().flat_map(|m| (0..).zip(m.properties()).map(move |(at, name)| (m, at, name)));
        properties.for_each(|(m, at, name)| self.line(6, &[m.index(), at], &name.number().to_string()));
        for m in program.models() {
            let mut methods: Vec<_> = m.methods().collect();
            methods.sort_by_key(|method| method.name);
            methods
                .iter()
                .for_each(|known| self.line(7, &[m.index(), known.function], &known.name.number().to_string()));
        }
    }

    fn refusal(&mut self, refusal: &Refusal) {
        self.line(0, &[refusal.row(), refusal.place()], "0");
        let Refusal::BookFaulty { errors, .. } = refusal else { return };
        for (index, error) in (0..).zip(errors) {
            let Position { line, column } = error.position;
            let kind = error.token.kind.number();
            let middle = [index, error.kind.number(), u64::from(line), u64::from(column), kind];
            self.line(11, &middle, &error.token.value.to_string());
        }
    }
}

#[test]
fn the_rule_books_give_their_listings() {
    let folder = Path::new(env!("CARGO_MANIFEST_DIR")).join("../examples");
    for name in ["snow", "drift", "combination", "utilisation", "limit_state", "misspelt", "faulty"] {
        let file = std::fs::read(folder.join(format!("{name}.col"))).expect("an example");
        let tree = columns_to_records(&file).expect("a column file");
        let mut areas = Areas::for_tree(&tree);
        let mut listing = Listing(String::new());
        match compile(&tree, &mut areas) {
            Ok(program) => listing.program(&program),
            Err(refusal) => listing.refusal(&refusal),
        }
        let kept = std::fs::read_to_string(folder.join(format!("{name}.listing"))).expect("its listing");
        assert!(listing.0 == kept, "{name}:\n{}", listing.0);
    }
}
