//! 01's own example and bench pieces as bundles, and small cases for the fixed readings.

use crate::records::{flatten, kind, position, Node, MAX_TEXT};

pub fn at(line: u64, column: u64) -> u64 {
    position(line, column)
}

pub fn document(file: u64, definitions: Vec<Node>) -> Node {
    Node::new(kind::DOCUMENT, 0, file, definitions)
}

pub fn function(name: u64, parameters: &[u64], body: Vec<Node>) -> Node {
    let mut children: Vec<Node> = parameters.iter().map(|&text| name_node(text)).collect();
    children.extend(body);
    Node::new(kind::FUNCTION, at(1, 10), name, children)
}

pub fn name_node(text: u64) -> Node {
    Node::leaf(kind::NAME, at(1, 12), text)
}

pub fn leaf(kind: u64, value: u64) -> Node {
    Node::leaf(kind, at(2, 5), value)
}

pub fn statement(expression: Node) -> Node {
    Node::new(kind::EXPRESSION, 0, 0, vec![expression])
}

pub fn identifier(text: u64) -> Node {
    leaf(kind::IDENTIFIER, text)
}

pub fn infix(value: u64, left: Node, right: Node) -> Node {
    Node::new(kind::INFIX, at(2, 7), value, vec![left, right])
}

pub fn get(kind: u64, instance: Node, index: Node) -> Node {
    Node::new(kind, at(2, 8), 0, vec![instance, index])
}

pub fn if_node(condition: Node, parts: Vec<Vec<Node>>) -> Node {
    let mut children = vec![condition];
    children.extend(parts.into_iter().map(|part| Node::new(kind::BLOCK, 0, 0, part)));
    Node::new(kind::IF, 0, 0, children)
}

pub fn for_node(name: u64, enumerable: Node, body: Vec<Node>) -> Node {
    let mut children = vec![name_node(name), enumerable];
    children.extend(body);
    Node::new(kind::FOR, at(2, 1), 0, children)
}

pub fn break_node() -> Node {
    leaf(kind::BREAK, 0)
}

pub fn include(file: u64, names: &[(u64, u64)]) -> Node {
    let names = names.iter().flat_map(|&(public, alias)| [name_node(public), name_node(alias)]).collect();
    Node::new(kind::INCLUDE, at(1, 1), file, names)
}

pub fn named(kind: u64, name: u64, children: Vec<Node>) -> Node {
    Node::new(kind, at(1, 7), name, children)
}

pub fn locals(kind: u64, pairs: Vec<(u64, Node)>) -> Node {
    Node::new(kind, 0, 0, pairs.into_iter().flat_map(|(name, value)| [name_node(name), value]).collect())
}

pub fn absent() -> Node {
    Node::leaf(kind::ABSENT, 0, 0)
}

pub fn apply(source: u64, target: u64) -> Node {
    Node::new(kind::APPLY, 0, 0, vec![name_node(source), name_node(target)])
}

/// One book, file 2, with one function, text 3.
pub fn body(parameters: &[u64], statements: Vec<Node>) -> Vec<u64> {
    flatten(&[document(2, vec![function(3, parameters, statements)])])
}

/// File 2 holds f (text 3) with parameter x (text 4): `if x return end`.
pub fn example() -> Vec<u64> {
    let x = Node::leaf(kind::IDENTIFIER, at(2, 6), 4);
    let back = Node::leaf(kind::RETURN, at(3, 5), 0);
    body(&[4], vec![statement(if_node(x, vec![vec![back]]))])
}

/// An expression that stands at `level` and reaches down to `bottom`.
fn down(level: usize, bottom: usize) -> Node {
    if level == bottom {
        return leaf(kind::NULL, 0);
    }
    Node::new(kind::PREFIX, at(3, 3), 1, vec![down(level + 1, bottom)])
}

/// Not of not of … null, with the null at this level.
pub fn deep(bottom: usize) -> Vec<u64> {
    body(&[], vec![statement(down(4, bottom))])
}

/// Compound targets inside compound targets: each doubles the work.
pub fn doubling(times: usize) -> Node {
    doubling_of(identifier(5), times)
}

/// The same around an expression.
pub fn doubling_of(inner: Node, times: usize) -> Node {
    (0..times).fold(inner, |inner, _| infix(6, get(kind::INDEX_GET, inner, leaf(kind::NULL, 0)), leaf(kind::NULL, 0)))
}

pub fn doubled(times: usize) -> Vec<u64> {
    body(&[], vec![statement(doubling(times))])
}

pub fn with_text(text: u64) -> Vec<u64> {
    body(&[], vec![statement(leaf(kind::STRING, text))])
}

/// The bench pieces by letter, (l) being the example.
pub fn bench() -> Vec<(&'static str, Vec<u64>)> {
    let seven = || statement(leaf(kind::INTEGER, 7));
    let half = || statement(leaf(kind::FLOAT, 0.5f64.to_bits()));
    let implement = |name| named(kind::IMPLEMENT, name, Vec::new());
    vec![
        ("a empty body", body(&[], vec![])),
        ("b lone outside break", body(&[], vec![break_node()])),
        ("c return return", body(&[], vec![leaf(kind::RETURN, 0), leaf(kind::RETURN, 0)])),
        ("d lone rescue", body(&[], vec![leaf(kind::RESCUE, 0)])),
        ("e rescue in an if", body(&[4], vec![statement(if_node(identifier(4), vec![vec![leaf(kind::RESCUE, 0)]]))])),
        ("f seven twice", body(&[], vec![seven(), seven()])),
        ("f half twice", body(&[], vec![half(), half()])),
        ("g lone this", body(&[], vec![statement(leaf(kind::THIS, 0))])),
        ("h for with break", body(&[4], vec![for_node(5, identifier(4), vec![break_node()])])),
        ("i not equal", body(&[4, 5], vec![statement(infix(12, identifier(4), identifier(5)))])),
        ("j assignment to 1", body(&[], vec![statement(infix(0, leaf(kind::INTEGER, 1), leaf(kind::NULL, 0)))])),
        ("k implement on a function", flatten(&[document(2, vec![function(3, &[], vec![]), implement(3)])])),
        ("k implement on an unknown name", flatten(&[document(2, vec![implement(3)])])),
        ("l the example", example()),
    ]
}

/// Small cases beside the bench pieces, one for each reading that surprises.
pub fn more() -> Vec<(&'static str, Vec<u64>)> {
    let one = |statement_node: Node| body(&[4], vec![statement_node]);
    let bundle = |documents: Vec<Node>| flatten(&documents);
    let breaks = || statement(if_node(identifier(4), vec![vec![break_node()]]));
    let broken_if = || if_node(identifier(4), vec![vec![break_node()]]);
    let this = |text| Node::leaf(kind::THIS_PARAMETER, at(1, 12), text);
    let method = |name, children| Node::new(kind::FUNCTION, at(2, 10), name, children);
    let lib = || {
        document(
            9,
            vec![
                named(kind::PUBLIC_MODEL, 20, vec![name_node(30), name_node(31)]),
                named(kind::IMPLEMENT, 20, vec![method(1, vec![this(7), name_node(4)]), method(40, vec![])]),
                named(kind::PUBLIC_FUNCTION, 21, vec![statement(identifier(20))]),
            ],
        )
    };
    vec![
        ("no records", Vec::new()),
        ("odd length", vec![1, 1, 0]),
        ("bare document", bundle(vec![document(2, vec![])])),
        ("level 64", deep(64)),
        ("level 65", deep(65)),
        ("text 1,048,575", with_text(MAX_TEXT)),
        ("text 1,048,576", with_text(MAX_TEXT + 1)),
        ("self-include", bundle(vec![document(2, vec![include(2, &[])])])),
        (
            "ring of two and one behind",
            bundle(vec![
                document(5, vec![include(4, &[])]),
                document(4, vec![include(3, &[])]),
                document(3, vec![include(4, &[])]),
            ]),
        ),
        ("book twice", bundle(vec![document(2, vec![]), document(3, vec![]), document(3, vec![])])),
        ("books missing", bundle(vec![document(2, vec![include(9, &[]), include(8, &[])])])),
        (
            "include below a definition is needed",
            bundle(vec![document(2, vec![function(3, &[], vec![]), include(8, &[(5, 6)])])]),
        ),
        (
            "self-include below a definition",
            bundle(vec![document(2, vec![named(kind::MODEL, 7, vec![]), include(2, &[])])]),
        ),
        (
            "second include below a definition",
            bundle(vec![
                document(2, vec![named(kind::MODEL, 7, vec![]), include(3, &[]), include(4, &[])]),
                document(3, vec![]),
            ]),
        ),
        ("break in an enumerable", one(for_node(5, broken_if(), vec![]))),
        (
            "break in a condition",
            one(for_node(
                5,
                identifier(4),
                vec![statement(if_node(broken_if(), vec![vec![leaf(kind::RETURN, 0)], vec![break_node()]]))],
            )),
        ),
        (
            "break of an inner and an outer loop",
            one(for_node(5, identifier(4), vec![for_node(6, identifier(5), vec![breaks()]), breaks()])),
        ),
        ("return at the end of a loop", one(for_node(5, identifier(4), vec![leaf(kind::RETURN, 0)]))),
        ("local reads itself", one(locals(kind::LOCAL, vec![(5, identifier(5)), (6, absent())]))),
        (
            "shadowed in a block",
            one(statement(if_node(
                identifier(4),
                vec![
                    vec![locals(kind::LOCAL, vec![(4, leaf(kind::INTEGER, u64::MAX))]), statement(identifier(4))],
                    vec![statement(identifier(4))],
                ],
            ))),
        ),
        (
            "compound to nested gets",
            one(statement(infix(
                7,
                get(
                    kind::INSTANCE_GET,
                    get(kind::INDEX_GET, identifier(4), leaf(kind::INTEGER, 0)),
                    leaf(kind::STRING, 8),
                ),
                infix(10, get(kind::INDEX_GET, identifier(9), identifier(4)), identifier(9)),
            ))),
        ),
        ("compound target doubled", doubled(3)),
        ("if with an empty false part", one(statement(if_node(identifier(4), vec![vec![], vec![]])))),
        ("rescue after statements", one(leaf(kind::RESCUE, 0))),
        (
            "models and methods through aliases",
            bundle(vec![
                document(
                    3,
                    vec![
                        include(9, &[(20, 22), (21, 21), (99, 23)]),
                        named(kind::MODEL, 24, vec![]),
                        apply(22, 24),
                        named(kind::IMPLEMENT, 24, vec![method(40, vec![this(7)]), method(40, vec![])]),
                        named(kind::IMPLEMENT, 22, vec![method(41, vec![])]),
                        apply(24, 22),
                        function(1, &[], vec![statement(identifier(23)), statement(identifier(21))]),
                    ],
                ),
                lib(),
            ]),
        ),
        (
            "late include alone",
            bundle(vec![document(3, vec![function(1, &[], vec![]), include(9, &[(21, 21), (20, 22)])]), lib()]),
        ),
        (
            "late include of a compiled book",
            bundle(vec![
                document(3, vec![include(9, &[]), function(1, &[], vec![]), include(9, &[(21, 21), (20, 22)])]),
                lib(),
            ]),
        ),
        (
            "repeated top-level names",
            bundle(vec![document(
                2,
                vec![
                    locals(
                        kind::LOCAL_DEFINITION,
                        vec![(5, absent()), (5, leaf(kind::STRING, 6)), (6, leaf(kind::INTEGER, 3))],
                    ),
                    function(1, &[], vec![]),
                    function(1, &[], vec![statement(identifier(5)), statement(identifier(7))]),
                    named(kind::PUBLIC_FUNCTION, 5, vec![]),
                    named(kind::PUBLIC_FUNCTION, 5, vec![leaf(kind::RETURN, 0)]),
                    function(7, &[], vec![statement(identifier(7))]),
                ],
            )]),
        ),
        ("string and global share a constant", one(statement(infix(0, identifier(8), leaf(kind::STRING, 8))))),
        ("error 1", one(locals(kind::LOCAL, vec![(4, leaf(kind::INTEGER, 99))]))),
        ("error 2 of a compound", one(statement(infix(6, leaf(kind::INTEGER, 1), identifier(4))))),
        (
            "error 3 of an infix, where the Rust panics",
            body(&[], vec![statement(infix(19, identifier(4), identifier(5)))]),
        ),
        ("error 3 of a prefix", one(statement(Node::new(kind::PREFIX, at(2, 5), 2, vec![identifier(4)])))),
        (
            "error 5 three times",
            bundle(vec![document(
                2,
                vec![locals(
                    kind::LOCAL_DEFINITION,
                    vec![(4, identifier(5)), (5, leaf(kind::STRING, 6)), (6, leaf(kind::OTHER_TOKEN, 0))],
                )],
            )]),
        ),
        ("error 6", bundle(vec![document(2, vec![named(kind::MODEL, 3, vec![name_node(4), name_node(4)])])])),
        ("error 7", body(&[4, 4], vec![])),
        ("error 7 of this", bundle(vec![document(2, vec![method(3, vec![this(7), name_node(7)])])])),
        (
            "error 8, then the public name is null",
            bundle(vec![document(
                2,
                vec![named(kind::PUBLIC_FUNCTION, 3, vec![this(7)]), named(kind::IMPLEMENT, 3, vec![])],
            )]),
        ),
        ("errors 9 and 10 of an apply", bundle(vec![document(2, vec![function(3, &[], vec![]), apply(4, 3)])])),
        (
            "errors of the first faulty book only",
            bundle(vec![
                document(7, vec![include(5, &[]), include(6, &[])]),
                document(6, vec![named(kind::IMPLEMENT, 3, vec![])]),
                document(5, vec![apply(3, 4)]),
            ]),
        ),
        (
            "this numbered as main",
            bundle(vec![document(
                2,
                vec![
                    named(kind::MODEL, 3, vec![]),
                    named(kind::IMPLEMENT, 3, vec![method(5, vec![this(1), statement(identifier(1))])]),
                ],
            )]),
        ),
        (
            "two numbers of this",
            bundle(vec![document(
                2,
                vec![
                    named(kind::MODEL, 3, vec![]),
                    named(kind::IMPLEMENT, 3, vec![method(5, vec![this(7)]), method(6, vec![this(8)])]),
                ],
            )]),
        ),
        ("an infix with one child is at fault itself", vec![1, 4, 0, 2, 14, 3, 0, 3, 25, 2, 0, 0, 39, 1, 0, 0]),
        ("a child too many is at fault itself", vec![1, 5, 0, 2, 14, 4, 0, 3, 25, 3, 0, 0, 32, 1, 0, 0, 32, 1, 0, 0]),
        (
            "all operators",
            body(&[4], (0..19).map(|value| statement(infix(value, identifier(4), leaf(kind::NULL, 0)))).collect()),
        ),
        (
            "all leaves",
            body(
                &[4],
                vec![
                    statement(Node::new(
                        kind::ARRAY,
                        at(4, 4),
                        0,
                        vec![
                            leaf(kind::NULL, 0),
                            leaf(kind::BOOLEAN, 1),
                            leaf(kind::BOOLEAN, 0),
                            leaf(kind::INTEGER, 1 << 63),
                            leaf(kind::FLOAT, 0x7FF8_0000_0000_0000),
                            leaf(kind::STRING, 4),
                            leaf(kind::THIS, 0),
                            identifier(4),
                        ],
                    )),
                    statement(Node::new(kind::CALL, at(4, 5), 0, vec![identifier(6), leaf(kind::NULL, 0)])),
                    statement(Node::new(
                        kind::PREFIX,
                        at(4, 6),
                        0,
                        vec![get(kind::INSTANCE_GET, identifier(4), leaf(kind::STRING, 9))],
                    )),
                    statement(infix(
                        0,
                        get(kind::INSTANCE_GET, identifier(4), leaf(kind::STRING, 9)),
                        leaf(kind::NULL, 0),
                    )),
                ],
            ),
        ),
        (
            "context locals read and set",
            bundle(vec![document(
                2,
                vec![
                    locals(
                        kind::LOCAL_DEFINITION,
                        vec![
                            (5, leaf(kind::NULL, 0)),
                            (6, leaf(kind::BOOLEAN, 1)),
                            (7, leaf(kind::BOOLEAN, 0)),
                            (8, leaf(kind::INTEGER, 5)),
                            (9, leaf(kind::FLOAT, 5)),
                            (10, absent()),
                        ],
                    ),
                    function(
                        3,
                        &[],
                        vec![
                            statement(infix(0, identifier(5), identifier(9))),
                            statement(infix(8, identifier(6), identifier(11))),
                        ],
                    ),
                ],
            )]),
        ),
    ]
}

/// Both zeros, two NaNs and the integers of the zeros' bits; then the floats once more, backwards.
fn each_float() -> Vec<Node> {
    let floats = [0.5f64.to_bits(), 0, 1 << 63, 0x7FF8_0000_0000_0000, 0x7FF8_0000_0000_0001];
    let float = |bits: u64| leaf(kind::FLOAT, bits);
    let integers = [0, 1 << 63].map(|bits| leaf(kind::INTEGER, bits));
    let (before, after) = floats.split_at(3);
    let again = floats.iter().rev().map(|&bits| float(bits));
    let first = before.iter().map(|&bits| float(bits)).chain(integers);
    first.chain(after.iter().map(|&bits| float(bits))).chain(again).collect()
}

/// Cases of document 02's requests.
pub fn requests() -> Vec<(&'static str, Vec<u64>)> {
    let floats = vec![
        locals(kind::LOCAL_DEFINITION, vec![(5, leaf(kind::FLOAT, 0.5f64.to_bits()))]),
        function(3, &[], vec![statement(Node::new(kind::ARRAY, 0, 0, each_float()))]),
    ];
    vec![("2026-05 floats by their bits", flatten(&[document(2, floats)]))]
}
