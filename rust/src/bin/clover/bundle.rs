//! A bundle that was compiled, or a program that was listed, with what is known of its books.

use crate::arguments::{Arguments, Choice, Failure};
use crate::input::{Content, Input};
use crate::listing::Listing;
use crate::progress::Progress;
use crate::refused;
use crate::sources::Sources;
use crate::style::counted;
use clover_back_end::nodes::documents;
use clover_back_end::records::RECORD_WORDS;
use clover_back_end::{Area, Areas, Mode, Program, Refusal, Text, Texts};

/// Options of every command that compiles.
pub const CHOICES: &[Choice] = &[
    Choice { name: "--memory", value: Some("MIB"), about: "lends at most so many MiB, 1024 unless this is given" },
    Choice { name: "--strict", value: None, about: "refuses an include with a name that is not public in its file" },
];

const MEMORY: usize = 1024;
const MIB: usize = 1 << 20;
const WORD_BYTES: usize = 8;

/// Where the program is.
enum Held {
    Compiled(Box<Areas>),
    Listed(Box<Listing>),
}

pub struct Bundle {
    /// The file as it was given.
    pub name: String,
    /// The records; none where a program was given by its listing.
    pub tree: Vec<u64>,
    pub texts: Texts,
    pub sources: Sources,
    held: Held,
}

impl Bundle {
    /// Reads and compiles a file; the inner error is what to say of a refusal.
    pub fn open(arguments: &Arguments, name: &str) -> Result<Result<Bundle, String>, Failure> {
        let memory = arguments.number("--memory", MEMORY)?;
        let most = memory.saturating_mul(MIB) / WORD_BYTES;
        let input = Input::read(arguments, name)?;
        if let Content::Listing(listing) = input.content {
            let files: Vec<Text> = listing.program().books().collect();
            let sources = Sources::read(input.folder.as_deref(), &files, &input.texts);
            let held = Held::Listed(listing);
            return Ok(Ok(Bundle { name: input.name, tree: Vec::new(), texts: input.texts, sources, held }));
        }
        let tree = match input.records() {
            Ok(tree) => tree,
            Err(refusal) => return Ok(Err(refused::input(&refusal, &input))),
        };
        let files: Vec<Text> = documents(&tree).filter_map(|document| document.text()).collect();
        let sources = Sources::read(input.folder.as_deref(), &files, &input.texts);
        for doubt in sources.doubts(&tree, &input.texts) {
            eprintln!("clover: {doubt}");
        }
        let areas = Areas::for_tree(&tree);
        if areas.len() > most {
            let least = areas.len() * WORD_BYTES / MIB + 1;
            return Err(Failure::new(format!("{name}: needs some {least} MiB, and `--memory` allows {memory}")));
        }
        let mode = if arguments.has("--strict") { Mode::Strict } else { Mode::Present };
        let (areas, refusal) = compile(mode, &tree, areas, most);
        let held = Held::Compiled(Box::new(areas));
        let bundle = Bundle { name: input.name, tree, texts: input.texts, sources, held };
        Ok(match refusal {
            None => Ok(bundle),
            Some(refusal) => Err(refused::bundle(&refusal, &bundle)),
        })
    }

    /// Whether it is a program that was given by its listing.
    pub fn is_listed(&self) -> bool {
        matches!(self.held, Held::Listed(_))
    }

    /// The errors that the compile call listed, as it left them in their area.
    pub fn errors(&self) -> &[u64] {
        match &self.held {
            Held::Compiled(areas) => areas.words(Area::Errors),
            Held::Listed(_) => &[],
        }
    }

    pub fn program(&self) -> Program<'_> {
        match &self.held {
            Held::Compiled(areas) => areas.program().expect("only a delivered bundle is opened"),
            Held::Listed(listing) => listing.program(),
        }
    }
}

fn compile(mode: Mode, tree: &[u64], mut areas: Areas, most: usize) -> (Areas, Option<Refusal>) {
    let _progress = Progress::of(format!("compiling {}", counted(tree.len() / RECORD_WORDS, "record")));
    let refusal = areas.compile_growing_in(mode, tree, most).err();
    (areas, refusal)
}

#[cfg(test)]
impl Bundle {
    /// A bundle of records that are delivered, without sources.
    pub fn of(tree: Vec<u64>, texts: Texts) -> Bundle {
        let mut areas = Areas::for_tree(&tree);
        areas.compile_growing(&tree, MEMORY * MIB / WORD_BYTES).expect("delivered");
        Bundle { name: String::new(), tree, texts, sources: Sources::default(), held: Held::Compiled(Box::new(areas)) }
    }
}
