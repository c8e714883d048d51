//! Pictures for Graphviz.

use crate::blocks::Way;
use crate::graph::{span, Picture};

fn quoted(text: &str) -> String {
    format!("\"{}\"", text.replace('\\', "\\\\").replace('"', "\\\""))
}

/// Lines that stand on the left, as Graphviz has them.
fn label(lines: &[String]) -> String {
    let each = lines.iter().map(|line| format!("{}\\l", line.replace('\\', "\\\\").replace('"', "\\\"")));
    format!("\"{}\"", each.collect::<String>())
}

fn way(way: Way) -> &'static str {
    match way {
        Way::Always => "",
        Way::True => " [label=\"true\", color=\"#15803d\", fontcolor=\"#15803d\"]",
        Way::False => " [label=\"false\", color=\"#b91c1c\", fontcolor=\"#b91c1c\"]",
        Way::Next => " [label=\"next\", color=\"#15803d\", fontcolor=\"#15803d\"]",
        Way::Done => " [label=\"done\", color=\"#b91c1c\", fontcolor=\"#b91c1c\"]",
    }
}

/// A block with the ways that leave it.
fn node(number: usize, at: usize, picture: &Picture) -> String {
    let (block, lines) = picture.block(at);
    let mut all = vec![span(&picture.flow.lines(block))];
    all.extend(lines.iter().cloned());
    all.retain(|line| !line.is_empty());
    let mark = match (block.head, block.rescue) {
        (true, _) => ", color=\"#6d28d9\", xlabel=\"loop\"",
        (_, true) => ", color=\"#c2410c\", xlabel=\"rescue\"",
        _ => "",
    };
    let mut out = format!("    b{number}_{at} [label={}{mark}];\n", label(&all));
    for &(kind, to) in &block.ways {
        let back = if to <= at { " [color=\"#6d28d9\", penwidth=2]" } else { way(kind) };
        out += &format!("    b{number}_{at} -> b{number}_{to}{back};\n");
    }
    if block.rescue {
        let error = format!("    e{number} [label=\"an error\", shape=plaintext];\n");
        out += &format!("{error}    e{number} -> b{number}_{at} [style=dashed, color=\"#c2410c\"];\n");
    }
    out
}

fn cluster(number: usize, picture: &Picture) -> String {
    let reached = (0..picture.flow.blocks.len()).filter(|&at| picture.flow.blocks[at].reached);
    let nodes: String = reached.map(|at| node(number, at, picture)).collect();
    format!("  subgraph cluster_{number} {{\n    label={};\n{nodes}  }}\n", quoted(&picture.title))
}

pub fn write(pictures: &[Picture]) -> String {
    let clusters: String = pictures.iter().enumerate().map(|(number, picture)| cluster(number, picture)).collect();
    format!(
        "digraph clover {{\n  node [shape=box, style=rounded, fontname=\"monospace\", fontsize=11];\n  \
         edge [fontname=\"sans-serif\", fontsize=10];\n  graph [fontname=\"sans-serif\", labeljust=l];\n{clusters}}}\n"
    )
}
