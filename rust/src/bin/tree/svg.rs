//! The picture of a tree over addresses: a row for each depth, a box for each range of a node, addresses from left to right.

use std::collections::BTreeSet;
use std::fmt::Write;
use std::ops::Range;

use pezgok::{Function, Node, readable};

use crate::about;

const WIDTH: f64 = 1240.0;
const LEFT: f64 = 40.0;
const RIGHT: f64 = 20.0;
const ROW: f64 = 22.0;
const BOX: f64 = 19.0;
const HEAD: f64 = 34.0;
const AXIS: f64 = 26.0;
const GAP: f64 = 22.0;
/// A letter of the font at its size.
const LETTER: f64 = 6.7;
/// No box is thinner, so that each range can be seen.
const THINNEST: f64 = 0.8;
const TICKS: u64 = 6;
/// A name's coloured square below the picture, and the lines of names there.
const SQUARE: f64 = 14.0;
const LEGEND_ROW: f64 = 16.0;
const LEGEND_ROWS: f64 = 12.0;

/// One picture of all functions of a name, one below the other.
pub fn picture(functions: &[Function<'_>]) -> String {
    let mut body = String::new();
    let mut top = GAP / 2.0;
    for function in functions {
        top = panel(function, top, &mut body) + GAP;
    }
    let height = top - GAP / 2.0;
    format!(
        "<svg xmlns=\"http://www.w3.org/2000/svg\" width=\"{WIDTH}\" height=\"{height}\" viewBox=\"0 0 {WIDTH} {height}\" \
         font-family=\"DejaVu Sans Mono, Menlo, Consolas, monospace\" font-size=\"11\">\n\
         <rect width=\"100%\" height=\"100%\" fill=\"#ffffff\"/>\n{body}</svg>\n"
    )
}

/// Draws a function from a height on, and gives the height below it.
fn panel(function: &Function<'_>, top: f64, out: &mut String) -> f64 {
    let range = function.range();
    let mut nodes: Vec<Node<'_>> = function.nodes().collect();
    if nodes.is_empty() {
        let ranges = vec![range.clone()];
        nodes.push(Node { depth: 0, name: function.name(), call_file: None, call_line: 0, ranges });
    }
    let inlined = nodes.len() - 1;
    let calls = if inlined == 1 { "1 inlined call".into() } else { format!("{inlined} inlined calls") };
    let known = if function.is_by_symbol() { ", known by symbol" } else { "" };
    let size = range.end - range.start;
    let heading = format!("{}  {:x}-{:x}, {size} bytes, {calls}{known}", readable(function.name()), range.start, range.end);
    put(
        out,
        format_args!(
            "<text x=\"{LEFT}\" y=\"{}\" font-size=\"13\" font-weight=\"bold\">{}</text>",
            top + 16.0,
            escape(&cut(&heading, WIDTH - LEFT - RIGHT, 7.9))
        ),
    );
    let depths = nodes.iter().map(|node| node.depth).max().unwrap_or(0) + 1;
    let rows = top + HEAD;
    for depth in 0..depths {
        let y = rows + depth as f64 * ROW;
        put(out, format_args!("<text x=\"{}\" y=\"{}\" fill=\"#777777\" text-anchor=\"end\">{depth}</text>", LEFT - 8.0, y + 14.0));
        put(out, format_args!("<rect x=\"{LEFT}\" y=\"{y}\" width=\"{}\" height=\"{BOX}\" fill=\"#f4f4f4\"/>", WIDTH - LEFT - RIGHT));
    }
    for node in &nodes {
        for part in &node.ranges {
            draw(node, part, &range, rows + node.depth as f64 * ROW, out);
        }
    }
    let bottom = rows + depths as f64 * ROW;
    axis(&range, bottom, out);
    legend(&nodes, &range, bottom + AXIS, out)
}

/// Whether a name stands in a box of such a width.
fn fits(name: &str, width: f64) -> bool {
    name.chars().count() as f64 * LETTER <= width - 6.0
}

/// Below the addresses, in their colours, the first of the names that fit no box; gives the height below them.
fn legend(nodes: &[Node<'_>], range: &Range<u64>, top: f64, out: &mut String) -> f64 {
    let mut shown = BTreeSet::new();
    for node in nodes {
        let width = node.ranges.iter().map(|part| across(part.end, range) - across(part.start, range)).fold(0.0, f64::max);
        if fits(&readable(node.name), width) {
            shown.insert(node.name);
        }
    }
    let (mut x, mut y) = (LEFT, top + 4.0);
    let mut left_over = 0;
    for node in nodes {
        if !shown.insert(node.name) {
            continue;
        }
        let name = cut(&readable(node.name), WIDTH - LEFT - RIGHT - SQUARE, LETTER);
        let width = name.chars().count() as f64 * LETTER + SQUARE + 14.0;
        if x + width > WIDTH - RIGHT && x > LEFT {
            (x, y) = (LEFT, y + LEGEND_ROW);
        }
        if y > top + 4.0 + LEGEND_ROWS * LEGEND_ROW {
            left_over += 1;
            continue;
        }
        put(out, format_args!("<rect x=\"{x:.2}\" y=\"{y}\" width=\"10\" height=\"10\" fill=\"{}\"/>", colour(node)));
        put(out, format_args!("<text x=\"{:.2}\" y=\"{}\">{}</text>", x + SQUARE, y + 9.0, escape(&name)));
        x += width;
    }
    if left_over > 0 {
        put(out, format_args!("<text x=\"{LEFT}\" y=\"{}\" fill=\"#777777\">and {left_over} more names</text>", y + 9.0));
    }
    if x > LEFT || left_over > 0 { y + LEGEND_ROW } else { y }
}

/// Where an address stands.
fn across(address: u64, range: &Range<u64>) -> f64 {
    let size = (range.end - range.start).max(1) as f64;
    LEFT + address.saturating_sub(range.start) as f64 / size * (WIDTH - LEFT - RIGHT)
}

fn draw(node: &Node<'_>, part: &Range<u64>, range: &Range<u64>, y: f64, out: &mut String) {
    let x = across(part.start, range);
    let width = (across(part.end, range) - x).max(THINNEST);
    let name = readable(node.name);
    let edge = if width > 3.0 { " stroke=\"#00000055\" stroke-width=\"0.6\"" } else { "" };
    put(out, format_args!("<g><title>{}</title>", escape(&format!("{name} {:x}-{:x}\nall:{}", part.start, part.end, about(node)))));
    put(out, format_args!("<rect x=\"{x:.2}\" y=\"{y}\" width=\"{width:.2}\" height=\"{BOX}\" fill=\"{}\"{edge}/>", colour(node)));
    if fits(&name, width) {
        put(out, format_args!("<text x=\"{:.2}\" y=\"{}\">{}</text>", x + 3.0, y + 13.5, escape(&name)));
    }
    out.push_str("</g>\n");
}

/// One colour for one name; the function itself is grey.
fn colour(node: &Node<'_>) -> String {
    if node.depth == 0 {
        return "#d5d9e0".into();
    }
    // Names that differ little must have colours that differ much.
    let sum = node.name.iter().fold(17_u32, |sum, &byte| (sum ^ u32::from(byte)).wrapping_mul(0x9e37_79b1).rotate_left(13));
    format!("hsl({}, {}%, {}%)", sum % 360, 50 + sum / 360 % 3 * 12, 68 + sum / 1080 % 4 * 4)
}

/// Addresses below the boxes.
fn axis(range: &Range<u64>, y: f64, out: &mut String) {
    let size = range.end - range.start;
    for tick in 0..=TICKS {
        let address = range.start + (u128::from(size) * u128::from(tick) / u128::from(TICKS)) as u64;
        let x = across(address, range);
        let anchor = match tick {
            0 => "start",
            TICKS => "end",
            _ => "middle",
        };
        put(out, format_args!("<path d=\"M{x:.2} {} v4\" stroke=\"#777777\"/>", y + 1.0));
        put(out, format_args!("<text x=\"{x:.2}\" y=\"{}\" fill=\"#777777\" text-anchor=\"{anchor}\">{address:x}</text>", y + 17.0));
    }
}

fn put(out: &mut String, line: std::fmt::Arguments<'_>) {
    // A String takes everything.
    let _ = out.write_fmt(line);
    out.push('\n');
}

/// A text that fits a width, or its beginning and an ellipsis.
fn cut(text: &str, width: f64, letter: f64) -> String {
    let room = (width / letter) as usize;
    if text.chars().count() <= room {
        return text.into();
    }
    text.chars().take(room.saturating_sub(1)).chain(['…']).collect()
}

fn escape(text: &str) -> String {
    let mut safe = String::new();
    for letter in text.chars() {
        match letter {
            '&' => safe.push_str("&amp;"),
            '<' => safe.push_str("&lt;"),
            '>' => safe.push_str("&gt;"),
            '\n' => safe.push('\n'),
            other if other.is_control() => safe.push('?'),
            other => safe.push(other),
        }
    }
    safe
}
