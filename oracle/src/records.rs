//! Records, the tree that they spell, and the numbers of 01 ("The tree").

/// Words of one record: kind, span, position, value.
pub const RECORD_WORDS: usize = 4;
pub const MAX_RECORDS: usize = 1_048_576;
pub const MAX_TEXT: u64 = 1_048_575;
pub const MAX_LEVEL: usize = 64;
/// The greatest line, and the greatest column (2026-06).
pub const MAX_PLACE: u64 = 99_999_999;
/// The text `main`.
pub const MAIN: u64 = 1;

/// The word of a position (2026-06): line × 2^32 + column.
pub fn position(line: u64, column: u64) -> u64 {
    line << 32 | column
}

/// Line and column of a position's word; of any other word, its halves.
pub fn line_and_column(position: u64) -> (u64, u64) {
    (position >> 32, position & 0xFFFF_FFFF)
}

/// Whether a word is a position: each half by itself.
pub fn is_position(word: u64) -> bool {
    let (line, column) = line_and_column(word);
    line <= MAX_PLACE && column <= MAX_PLACE
}

pub mod kind {
    pub const DOCUMENT: u64 = 1;
    pub const LOCAL_DEFINITION: u64 = 10;
    pub const INCLUDE: u64 = 11;
    pub const MODEL: u64 = 12;
    pub const PUBLIC_MODEL: u64 = 13;
    pub const FUNCTION: u64 = 14;
    pub const PUBLIC_FUNCTION: u64 = 15;
    pub const IMPLEMENT: u64 = 16;
    pub const APPLY: u64 = 17;
    pub const LOCAL: u64 = 20;
    pub const RETURN: u64 = 21;
    pub const BREAK: u64 = 22;
    pub const RESCUE: u64 = 23;
    pub const FOR: u64 = 24;
    pub const EXPRESSION: u64 = 25;
    pub const IDENTIFIER: u64 = 30;
    pub const THIS: u64 = 31;
    pub const NULL: u64 = 32;
    pub const INTEGER: u64 = 33;
    pub const FLOAT: u64 = 34;
    pub const STRING: u64 = 35;
    pub const BOOLEAN: u64 = 36;
    pub const ARRAY: u64 = 37;
    pub const PREFIX: u64 = 38;
    pub const INFIX: u64 = 39;
    pub const NAME: u64 = 40;
    pub const THIS_PARAMETER: u64 = 41;
    pub const IF: u64 = 42;
    pub const BLOCK: u64 = 43;
    pub const CALL: u64 = 44;
    pub const INSTANCE_GET: u64 = 45;
    pub const INDEX_GET: u64 = 46;
    pub const OTHER_TOKEN: u64 = 47;
    pub const ABSENT: u64 = 49;

    pub const ALL: [u64; 34] = [
        DOCUMENT,
        LOCAL_DEFINITION,
        INCLUDE,
        MODEL,
        PUBLIC_MODEL,
        FUNCTION,
        PUBLIC_FUNCTION,
        IMPLEMENT,
        APPLY,
        LOCAL,
        RETURN,
        BREAK,
        RESCUE,
        FOR,
        EXPRESSION,
        IDENTIFIER,
        THIS,
        NULL,
        INTEGER,
        FLOAT,
        STRING,
        BOOLEAN,
        ARRAY,
        PREFIX,
        INFIX,
        NAME,
        THIS_PARAMETER,
        IF,
        BLOCK,
        CALL,
        INSTANCE_GET,
        INDEX_GET,
        OTHER_TOKEN,
        ABSENT,
    ];

    pub fn is_statement(kind: u64) -> bool {
        matches!(kind, LOCAL..=EXPRESSION)
    }

    pub fn is_expression(kind: u64) -> bool {
        matches!(kind, IDENTIFIER..=INFIX | IF | CALL | INSTANCE_GET | INDEX_GET)
    }

    /// Kinds whose token has no place of its own.
    pub fn has_no_position(kind: u64) -> bool {
        matches!(kind, DOCUMENT | LOCAL_DEFINITION | APPLY | LOCAL | EXPRESSION | IF | BLOCK | ABSENT)
    }

    /// Kinds whose value is a text.
    pub fn holds_text(kind: u64) -> bool {
        matches!(kind, DOCUMENT | INCLUDE..=IMPLEMENT | IDENTIFIER | STRING | NAME | THIS_PARAMETER)
    }
}

#[derive(Clone, Copy, Debug, PartialEq, Eq)]
pub struct Record {
    pub kind: u64,
    pub span: u64,
    pub position: u64,
    pub value: u64,
}

/// The records of a word list; a rest shorter than a record is left out.
pub fn records(words: &[u64]) -> Vec<Record> {
    words.chunks_exact(RECORD_WORDS).map(|w| Record { kind: w[0], span: w[1], position: w[2], value: w[3] }).collect()
}

pub fn words(records: &[Record]) -> Vec<u64> {
    records.iter().flat_map(|r| [r.kind, r.span, r.position, r.value]).collect()
}

/// A record with its children, for building and shrinking bundles.
#[derive(Clone, Debug, PartialEq, Eq)]
pub struct Node {
    pub kind: u64,
    pub position: u64,
    pub value: u64,
    pub children: Vec<Node>,
}

impl Node {
    pub fn new(kind: u64, position: u64, value: u64, children: Vec<Node>) -> Node {
        Node { kind, position, value, children }
    }

    pub fn leaf(kind: u64, position: u64, value: u64) -> Node {
        Node::new(kind, position, value, Vec::new())
    }

    /// Records of the subtree.
    pub fn size(&self) -> usize {
        1 + self.children.iter().map(Node::size).sum::<usize>()
    }

    fn write(&self, out: &mut Vec<u64>) -> u64 {
        let at = out.len();
        out.extend([self.kind, 0, self.position, self.value]);
        let span = 1 + self.children.iter().map(|child| child.write(out)).sum::<u64>();
        out[at + 1] = span;
        span
    }
}

/// The words of a bundle, given as its documents.
pub fn flatten(documents: &[Node]) -> Vec<u64> {
    let mut out = Vec::new();
    for document in documents {
        document.write(&mut out);
    }
    out
}

/// The trees that the words spell, if spans nest; kinds and values are not looked at.
pub fn trees(words: &[u64]) -> Option<Vec<Node>> {
    fn run(records: &[Record], mut at: usize, end: usize, level: usize) -> Option<Vec<Node>> {
        let mut nodes = Vec::new();
        while at < end {
            let r = records[at];
            let span = usize::try_from(r.span).ok()?;
            if span == 0 || span > end - at || level > 2 * MAX_LEVEL {
                return None;
            }
            let children = run(records, at + 1, at + span, level + 1)?;
            nodes.push(Node::new(r.kind, r.position, r.value, children));
            at += span;
        }
        Some(nodes)
    }
    if words.len() % RECORD_WORDS != 0 {
        return None;
    }
    let records = records(words);
    run(&records, 0, records.len(), 1)
}
