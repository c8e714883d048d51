//! Pictures as SVG: each function is a panel with its blocks.

use crate::blocks::{Block, Way};
use crate::graph::{span, Picture};
use crate::layout::{place, Edge, Layout, Size};
use crate::reading::CONDITION;

const LETTER: f64 = 7.55;
const SMALL_LETTER: f64 = 6.1;
const TITLE_LETTER: f64 = 8.9;
const LINE: f64 = 17.0;
/// Room for the mark of a loop.
const BAR: f64 = 5.0;
const PAD: f64 = 24.0;
const INSIDE: f64 = 12.0;
/// Title and the line under it.
const HEAD: f64 = 56.0;
/// Lines of a block are broken here.
const LETTERS: usize = 46;
/// Panels go to the next row where they are wider than this together.
const SHEET: f64 = 1240.0;

const STYLE: &str = "\
text{font-family:ui-monospace,SFMono-Regular,Menlo,Consolas,'DejaVu Sans Mono',monospace;font-size:12.5px}\
text{fill:#0f172a;white-space:pre}\
.t{font-weight:700;font-size:14.5px}.s{font-size:10.5px;fill:#64748b}.w{font-size:10.5px}\
.m{text-anchor:middle}.z{text-anchor:end}.p{fill:#fff;stroke:#e2e8f0}.b{fill:#f8fafc;stroke:#94a3b8}.c{fill:#eff6ff;stroke:#3b82f6}.r{fill:#f0fdf4;stroke:#16a34a}\
.l{fill:#f5f3ff;stroke:#7c3aed}.x{fill:#fff7ed;stroke:#ea580c}.i{fill:#c4b5fd}.n{fill:#fff;stroke:#94a3b8}\
path{fill:none;stroke-width:1.5}.a{stroke:#64748b}.y{stroke:#16a34a}.o{stroke:#dc2626}.k{stroke:#7c3aed;stroke-width:2}\
.e{stroke:#ea580c;stroke-dasharray:5 4}text.w{paint-order:stroke;stroke:#fff;stroke-width:4px}\
text.y{fill:#15803d}text.o{fill:#b91c1c}text.k{fill:#6d28d9}text.e{fill:#c2410c}.v{fill:#b45309}";

/// A box of a panel.
struct Shape {
    class: &'static str,
    small: String,
    /// A word in the upper right corner with its class.
    mark: Option<(&'static str, &'static str)>,
    lines: Vec<String>,
    /// Loops around it.
    depth: usize,
}

impl Shape {
    /// Whether there is a line above its lines.
    fn has_head(&self) -> bool {
        !self.small.is_empty() || self.mark.is_some()
    }
}

/// A way between boxes.
struct Line {
    edge: Edge,
    class: &'static str,
    word: &'static str,
}

struct Panel<'a> {
    picture: &'a Picture,
    shapes: Vec<Shape>,
    lines: Vec<Line>,
    /// How many of the lines lead down; the others come after them.
    down: usize,
    layout: Layout,
    width: f64,
    height: f64,
}

fn escaped(text: &str) -> String {
    text.replace('&', "&amp;").replace('<', "&lt;").replace('>', "&gt;")
}

/// Numbers and strings stand out.
fn marked(line: &str) -> String {
    // An instruction's own number is no value of the book.
    let number = line.len() - line.trim_start_matches(|letter: char| letter == ' ' || letter.is_ascii_digit()).len();
    let number = if line[..number].ends_with("  ") { number } else { 0 };
    let mut out = line[..number].to_string();
    let mut rest = &line[number..];
    let mut before = ' ';
    while let Some(first) = rest.chars().next() {
        let length = match first {
            '"' => rest[1..].find('"').map_or(rest.len(), |end| end + 2),
            '0'..='9' if !before.is_alphanumeric() && before != '_' => {
                rest.find(|letter: char| !letter.is_alphanumeric() && letter != '.').unwrap_or(rest.len())
            }
            _ => 0,
        };
        let (part, after) = rest.split_at(length.max(first.len_utf8()));
        let plain = escaped(part);
        out += &if length > 0 { format!("<tspan class=\"v\">{plain}</tspan>") } else { plain };
        before = part.chars().next_back().unwrap_or(' ');
        rest = after;
    }
    out
}

/// Breaks a line at a blank; what follows is moved in.
fn broken(line: &str) -> Vec<String> {
    let mut out = vec![String::new()];
    for word in line.split(' ') {
        let last = out.last_mut().expect("never empty");
        if !last.trim().is_empty() && last.chars().count() + word.chars().count() >= LETTERS {
            out.push(format!("    {word}"));
        } else if last.is_empty() {
            last.push_str(word);
        } else {
            *last += &format!(" {word}");
        }
    }
    out
}

fn pill(word: &str, class: &'static str) -> Shape {
    Shape { class, small: String::new(), mark: None, lines: vec![word.to_string()], depth: 0 }
}

fn shape(picture: &Picture, at: usize) -> Shape {
    let (block, lines) = picture.block(at);
    let last = lines.last().map_or("", String::as_str);
    let class = match block {
        Block { rescue: true, .. } => "x",
        Block { head: true, .. } => "l",
        _ if last.ends_with(CONDITION) => "c",
        _ if block.ways.is_empty() => "r",
        _ => "b",
    };
    let mark = match class {
        "x" => Some(("rescue", "e")),
        "l" => Some(("loop", "k")),
        _ => None,
    };
    // A block that leaves nothing or null needs no more than a sign.
    if class == "b" && (lines.is_empty() || lines == ["null"]) {
        return pill(last, "n");
    }
    let lines = lines.iter().flat_map(|line| broken(line)).collect();
    Shape { class, small: span(&picture.flow.lines(block)), mark, lines, depth: block.loops.len() }
}

fn size(shape: &Shape) -> Size {
    let letters = shape.lines.iter().map(|line| line.chars().count()).max().unwrap_or(0) as f64;
    let mark = shape.mark.map_or(0, |(word, _)| word.len() + 2);
    let small = (shape.small.chars().count() + mark) as f64 * SMALL_LETTER;
    let head = if shape.has_head() { LINE } else { 0.0 };
    let bars = BAR * shape.depth as f64;
    let width = (letters * LETTER).max(small) + 2.0 * INSIDE + bars;
    let height = head + LINE * shape.lines.len() as f64 + 13.0;
    match shape.class {
        "n" if letters == 0.0 => Size { width: 12.0, height: 12.0 },
        "n" => Size { width: letters * SMALL_LETTER + 28.0, height: 26.0 },
        _ => Size { width: width.max(52.0), height },
    }
}

fn way(way: Way) -> (&'static str, &'static str) {
    match way {
        Way::Always => ("a", ""),
        Way::True => ("y", "true"),
        Way::False => ("o", "false"),
        Way::Next => ("y", "next"),
        Way::Done => ("o", "done"),
    }
}

impl<'a> Panel<'a> {
    fn new(picture: &'a Picture) -> Panel<'a> {
        let blocks = &picture.flow.blocks;
        let mut shapes = vec![pill("start", "n")];
        let mut number = vec![None; blocks.len()];
        let mut lines = Vec::new();
        for at in (0..blocks.len()).filter(|&at| blocks[at].reached) {
            if blocks[at].rescue {
                shapes.push(pill("an error", "n"));
                lines.push(Line { edge: Edge { from: shapes.len() - 1, to: shapes.len() }, class: "e", word: "" });
            }
            number[at] = Some(shapes.len());
            shapes.push(shape(picture, at));
        }
        let first = number[0].expect("the first block is reached");
        lines.push(Line { edge: Edge { from: 0, to: first }, class: "a", word: "" });
        let mut back = Vec::new();
        for (at, block) in blocks.iter().enumerate() {
            for &(kind, to) in &block.ways {
                let (Some(from), Some(to)) = (number[at], number[to]) else { continue };
                let (class, word) = if to <= from { ("k", "") } else { way(kind) };
                let line = Line { edge: Edge { from, to }, class, word };
                if to <= from { &mut back } else { &mut lines }.push(line);
            }
        }
        let down = lines.len();
        lines.extend(back);
        let sizes: Vec<Size> = shapes.iter().map(size).collect();
        let edges: Vec<Edge> = lines.iter().map(|line| line.edge).collect();
        let layout = place(&sizes, &edges[..down], &edges[down..]);
        Panel { picture, shapes, lines, down, layout, width: 0.0, height: 0.0 }.sized()
    }

    fn sized(mut self) -> Panel<'a> {
        let title = self.picture.title.chars().count() as f64 * TITLE_LETTER;
        let small = self.small_lines().iter().map(|line| line.chars().count()).max().unwrap_or(0);
        let about = self.picture.about.chars().count().max(small) as f64 * SMALL_LETTER;
        self.width = self.layout.width.max(title).max(about) + 2.0 * PAD;
        self.height = HEAD + self.layout.height + 2.0 * PAD + 15.0 * self.small_lines().len() as f64;
        self
    }

    /// The lines under the picture.
    fn small_lines(&self) -> Vec<String> {
        let mut out = self.picture.notes.clone();
        for block in self.picture.flow.blocks.iter().filter(|block| !block.reached) {
            let (first, last) = (block.start, block.end.max(block.start + 1) - 1);
            out.push(if first == last {
                format!("instruction {first} is never reached")
            } else {
                format!("instructions {first} to {last} are never reached")
            });
        }
        out
    }

    fn draw(&self) -> String {
        let (title, about) = (escaped(&self.picture.title), escaped(&self.picture.about));
        let mut out = format!(
            "<rect class=\"p\" x=\".5\" y=\".5\" width=\"{:.0}\" height=\"{:.0}\" rx=\"10\"/>\n{}{}\n",
            self.width - 1.0,
            self.height - 1.0,
            text("t", (PAD, 30.0), &title),
            text("s", (PAD, 47.0), &about)
        );
        let aside = (self.width - self.layout.width) / 2.0;
        out += &format!("<g transform=\"translate({aside:.1} {:.1})\">\n", HEAD + PAD / 2.0);
        (0..self.lines.len()).for_each(|at| out += &self.line(at));
        self.shapes.iter().zip(&self.layout.corners).for_each(|(shape, &corner)| out += &box_of(shape, corner));
        out += "</g>\n";
        let below = HEAD + PAD + self.layout.height + 14.0;
        for (at, note) in self.small_lines().iter().enumerate() {
            let y = below + 15.0 * at as f64;
            out += &format!("{}\n", text("s", (PAD, y), &escaped(note)));
        }
        out
    }

    /// Where a way leaves its box: those of one box stand apart, in the order of where they go.
    fn port(&self, at: usize) -> f64 {
        let from = self.lines[at].edge.from;
        let aim = |line: usize| self.layout.paths[line].get(2).map_or(0.0, |point| point.0);
        let mut out: Vec<usize> = (0..self.lines.len()).filter(|&line| self.lines[line].edge.from == from).collect();
        out.sort_by(|&one, &two| aim(one).total_cmp(&aim(two)));
        let place = out.iter().position(|&line| line == at).expect("it is one of them");
        let width = size(&self.shapes[from]).width;
        let apart = (width / (out.len() as f64 + 1.0)).min(64.0);
        self.layout.corners[from].0 + width / 2.0 + apart * (place as f64 - (out.len() as f64 - 1.0) / 2.0)
    }

    fn line(&self, at: usize) -> String {
        let Line { class, word, .. } = self.lines[at];
        let mut points = self.layout.paths[at].clone();
        let port = self.port(at);
        points[0].0 = port;
        points[1].0 = port;
        let path = if at < self.down { curved(&points) } else { cornered(&points) };
        let label = if word.is_empty() {
            String::new()
        } else {
            let (x, y) = ((points[1].0 + points[2].0) / 2.0, (points[1].1 + points[2].1) / 2.0 + 2.0);
            text(&format!("w {class} m"), (x, y), word)
        };
        format!("<path class=\"{class}\" marker-end=\"url(#{class})\" d=\"{path}\"/>{label}\n")
    }
}

/// The arrow's point lies on the box.
const ARROW: f64 = 2.0;

/// In turn a line and a curve with upright ends.
fn curved(points: &[(f64, f64)]) -> String {
    let mut out = format!("M{:.1} {:.1}", points[0].0, points[0].1);
    for (at, pair) in points.windows(2).enumerate() {
        let [(x0, y0), (x1, y1)] = [pair[0], pair[1]];
        let end = if at + 2 == points.len() { y1 - ARROW } else { y1 };
        let half = (y0 + end) / 2.0;
        out += &if at % 2 == 0 || (x0 - x1).abs() < 0.5 {
            format!("L{x1:.1} {end:.1}")
        } else {
            format!("C{x0:.1} {half:.1} {x1:.1} {half:.1} {x1:.1} {end:.1}")
        };
    }
    out
}

/// Lines with round corners.
fn cornered(points: &[(f64, f64)]) -> String {
    let mut out = format!("M{:.1} {:.1}", points[0].0, points[0].1);
    for three in points.windows(3) {
        let [(x0, y0), (x1, y1), (x2, y2)] = [three[0], three[1], three[2]];
        let toward = |x: f64, y: f64| {
            let length = (x - x1).hypot(y - y1).max(0.1);
            let part = (8.0 / length).min(0.5);
            (x1 + (x - x1) * part, y1 + (y - y1) * part)
        };
        let ((ax, ay), (bx, by)) = (toward(x0, y0), toward(x2, y2));
        out += &format!("L{ax:.1} {ay:.1}Q{x1:.1} {y1:.1} {bx:.1} {by:.1}");
    }
    let (x, y) = points[points.len() - 1];
    out + &format!("L{x:.1} {:.1}", y - ARROW)
}

/// A text at a place.
fn text(class: &str, (x, y): (f64, f64), words: &str) -> String {
    format!("<text class=\"{class}\" x=\"{x:.1}\" y=\"{y:.1}\">{words}</text>")
}

fn box_of(shape: &Shape, (x, y): (f64, f64)) -> String {
    let Size { width, height } = size(shape);
    let (class, round) = (shape.class, if shape.class == "n" { height / 2.0 } else { 6.0 });
    let place = format!("x=\"{x:.1}\" y=\"{y:.1}\" width=\"{width:.1}\" height=\"{height:.1}\"");
    let frame = format!("<rect class=\"{class}\" {place} rx=\"{round:.0}\"/>");
    if class == "n" {
        let middle = (x + width / 2.0, y + LINE - 0.5);
        let words = shape.lines.first().map_or_else(String::new, |word| text("s m", middle, &escaped(word)));
        return format!("{frame}{words}\n");
    }
    let bars: String = (0..shape.depth).map(|bar| bar_of(x + BAR * (bar + 1) as f64, y, height)).collect();
    let left = x + INSIDE + BAR * shape.depth as f64;
    let head = if shape.has_head() { LINE } else { 0.0 };
    let small = text("s", (left, y + LINE + 1.0), &shape.small);
    let mark =
        shape.mark.map(|(word, class)| text(&format!("w {class} z"), (x + width - INSIDE, y + LINE + 1.0), word));
    let lines: String = (1..)
        .zip(&shape.lines)
        .map(|(at, line)| text("q", (left, y + 2.5 + head + LINE * f64::from(at)), &marked(line)))
        .collect();
    let head = if shape.has_head() { small + &mark.unwrap_or_default() } else { String::new() };
    format!("{frame}{bars}{head}{lines}\n")
}

/// A loop around a block.
fn bar_of(x: f64, y: f64, height: f64) -> String {
    let (top, tall) = (y + 6.0, height - 12.0);
    format!("<rect class=\"i\" x=\"{x:.1}\" y=\"{top:.1}\" width=\"2.5\" height=\"{tall:.1}\" rx=\"1\"/>")
}

const COLOURS: [(&str, &str); 5] =
    [("a", "#64748b"), ("y", "#16a34a"), ("o", "#dc2626"), ("k", "#7c3aed"), ("e", "#ea580c")];

fn arrows() -> String {
    let arrow = |(name, colour): &(&str, &str)| {
        format!(
            "<marker id=\"{name}\" viewBox=\"0 0 8 8\" refX=\"6\" refY=\"4\" markerWidth=\"8\" markerHeight=\"8\" \
             markerUnits=\"userSpaceOnUse\" orient=\"auto\">\
             <path d=\"M0 0L8 4L0 8Z\" style=\"fill:{colour};stroke:none\"/></marker>"
        )
    };
    format!("<defs>{}</defs>\n", COLOURS.iter().map(arrow).collect::<String>())
}

/// Panels side by side, in rows; returns where each stands, and the size of all.
fn sheet(panels: &[Panel]) -> (Vec<(f64, f64)>, f64, f64) {
    let (mut x, mut y, mut tall, mut wide) = (0.0, 0.0, 0.0f64, 0.0f64);
    let mut places = Vec::new();
    for panel in panels {
        if x > 0.0 && x + panel.width > SHEET {
            y += tall + 16.0;
            (x, tall) = (0.0, 0.0);
        }
        places.push((x, y));
        x += panel.width + 16.0;
        wide = wide.max(x - 16.0);
        tall = tall.max(panel.height);
    }
    (places, wide, y + tall)
}

pub fn draw(pictures: &[Picture]) -> String {
    let panels: Vec<Panel> = pictures.iter().map(Panel::new).collect();
    let (places, width, height) = sheet(&panels);
    let (width, height) = (width.ceil(), height.ceil());
    let titles: Vec<String> = pictures.iter().map(|picture| escaped(&picture.title)).collect();
    let mut out = format!(
        "<svg xmlns=\"http://www.w3.org/2000/svg\" xml:space=\"preserve\" width=\"{width}\" height=\"{height}\" \
         viewBox=\"0 0 {width} {height}\">\n<title>{}</title>\n<style>{STYLE}</style>\n{}",
        titles.join("; "),
        arrows()
    );
    for (panel, (x, y)) in panels.iter().zip(places) {
        out += &format!("<g transform=\"translate({x:.0} {y:.0})\">\n{}</g>\n", panel.draw());
    }
    out + "</svg>\n"
}
