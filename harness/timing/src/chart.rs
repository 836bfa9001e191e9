//! How the time of one call grows, as a drawing (SVG): a panel for each leaf, both axes logarithmic.

use crate::growth::{Line, FOLLOWED, SIZES};
use crate::inputs::GROWING;

const WIDTH: f64 = 800.0;
const HEIGHT: f64 = 470.0;

/// The left edge of each panel, and what all have in common.
const LEFT: [f64; FOLLOWED.len()] = [84.0, 320.0, 556.0];
const PANEL: f64 = 196.0;
const TOP: f64 = 62.0;
const BOTTOM: f64 = 362.0;

/// The color and the point of a side: ours a dot, the Rust a ring, which leaves a dot under it to be seen.
const SIDES: [(&str, &str, &str); 2] = [
    ("ours", "#0072b2", "r=\"3\" fill=\"#0072b2\""),
    ("the Rust", "#d55e00", "r=\"5\" fill=\"none\" stroke=\"#d55e00\" stroke-width=\"1.5\""),
];

/// The line of an input: the first whole, the second dashed.
const DASHES: [&str; GROWING.len()] = ["", " stroke-dasharray=\"6 4\""];

const FRAME: &str = "#666666";
const GRID: &str = "#dddddd";

pub fn drawn(lines: &[Line]) -> String {
    let decades = Decades::of(lines);
    let mut parts = vec![
        format!(
            "<svg xmlns=\"http://www.w3.org/2000/svg\" viewBox=\"0 0 {WIDTH} {HEIGHT}\" width=\"{WIDTH}\" \
             height=\"{HEIGHT}\" font-family=\"sans-serif\" font-size=\"14\" fill=\"#222222\">"
        ),
        format!("<rect width=\"{WIDTH}\" height=\"{HEIGHT}\" fill=\"#ffffff\"/>"),
        text(WIDTH / 2.0, 24.0, "middle", "The time of one call, by its number of characters"),
        format!(
            "<text transform=\"translate(20 {}) rotate(-90)\" text-anchor=\"middle\">time of one call</text>",
            (TOP + BOTTOM) / 2.0
        ),
    ];
    for (leaf, left) in FOLLOWED.iter().zip(LEFT) {
        parts.extend(panel(leaf.name, left, &decades));
        let own = lines.iter().filter(|line| line.leaf == leaf.name);
        parts.extend(own.flat_map(|line| curves(line, left, &decades)));
    }
    parts.extend(legend());
    parts.push("</svg>\n".to_owned());
    parts.join("\n")
}

/// The powers of ten, in ns, between which all times lie.
struct Decades {
    first: i32,
    last: i32,
}

impl Decades {
    fn of(lines: &[Line]) -> Self {
        let times = || lines.iter().flat_map(|line| &line.times).flatten().map(|ns| ns.max(1.0).log10());
        let first = times().fold(f64::MAX, f64::min).floor() as i32;
        let last = times().fold(0.0, f64::max).ceil() as i32;
        Self { first, last: last.max(first + 1) }
    }

    /// How high a time stands.
    fn height(&self, ns: f64) -> f64 {
        let share = (ns.max(1.0).log10() - f64::from(self.first)) / f64::from(self.last - self.first);
        BOTTOM - share * (BOTTOM - TOP)
    }
}

/// How far right a number of characters stands.
fn along(left: f64, size: usize) -> f64 {
    let [first, last] = [SIZES[0], SIZES[SIZES.len() - 1]].map(|size| (size as f64).log10());
    left + PANEL * ((size as f64).log10() - first) / (last - first)
}

/// The frame of a panel with its grid, its name and the marks of its axes. The times are marked at the first panel.
fn panel(name: &str, left: f64, decades: &Decades) -> Vec<String> {
    let right = left + PANEL;
    let mut parts = vec![text(left + PANEL / 2.0, TOP - 12.0, "middle", name)];
    for decade in decades.first..=decades.last {
        let y = decades.height(10f64.powi(decade));
        parts.push(stroke(left, y, right, y, GRID));
        if left == LEFT[0] {
            parts.push(text(left - 8.0, y + 5.0, "end", &time(decade)));
        }
    }
    for size in SIZES {
        let x = along(left, size);
        parts.push(stroke(x, TOP, x, BOTTOM, GRID));
        parts.push(text(x, BOTTOM + 20.0, "middle", &power(size)));
    }
    parts.push(format!(
        "<rect x=\"{left}\" y=\"{TOP}\" width=\"{PANEL}\" height=\"{}\" fill=\"none\" stroke=\"{FRAME}\"/>",
        BOTTOM - TOP
    ));
    parts.push(text(left + PANEL / 2.0, BOTTOM + 44.0, "middle", "characters"));
    parts
}

/// A power of ten of ns in its unit.
fn time(decade: i32) -> String {
    let unit = (decade / 3).clamp(0, 3);
    format!("{} {}", 10u32.pow((decade - 3 * unit) as u32), ["ns", "µs", "ms", "s"][unit as usize])
}

/// A power of ten.
fn power(size: usize) -> String {
    let digits = ["⁰", "¹", "²", "³", "⁴", "⁵", "⁶", "⁷", "⁸", "⁹"];
    format!("10{}", digits[size.ilog10() as usize])
}

/// The two sides of a leaf on an input.
fn curves(line: &Line, left: f64, decades: &Decades) -> Vec<String> {
    let input = GROWING.iter().position(|input| input.name == line.input).unwrap_or(0);
    let mut parts = Vec::new();
    for (side, (_, color, point)) in SIDES.iter().enumerate() {
        let points: Vec<(f64, f64)> = SIZES
            .iter()
            .zip(&line.times)
            .map(|(size, times)| (along(left, *size), decades.height(times[side])))
            .collect();
        let path: Vec<String> = points.iter().map(|(x, y)| format!("{x:.1},{y:.1}")).collect();
        parts.push(format!(
            "<polyline points=\"{}\" fill=\"none\" stroke=\"{color}\" stroke-width=\"1.8\"{}/>",
            path.join(" "),
            DASHES[input]
        ));
        parts.extend(points.into_iter().map(|(x, y)| format!("<circle cx=\"{x:.1}\" cy=\"{y:.1}\" {point}/>")));
    }
    parts
}

/// A column for each side, a row for each input.
fn legend() -> Vec<String> {
    let mut parts = Vec::new();
    for (column, (side, color, point)) in SIDES.iter().enumerate() {
        for (row, (input, dashes)) in GROWING.iter().zip(DASHES).enumerate() {
            let (x, y) = (212.0 + 236.0 * column as f64, BOTTOM + 72.0 + 22.0 * row as f64);
            parts.push(format!(
                "<line x1=\"{x}\" y1=\"{y}\" x2=\"{}\" y2=\"{y}\" stroke=\"{color}\" stroke-width=\"1.8\"{dashes}/>",
                x + 50.0
            ));
            parts.push(format!("<circle cx=\"{}\" cy=\"{y}\" {point}/>", x + 25.0));
            parts.push(text(x + 60.0, y + 5.0, "start", &format!("{side}, {}", input.name)));
        }
    }
    parts
}

fn stroke(x1: f64, y1: f64, x2: f64, y2: f64, color: &str) -> String {
    format!("<line x1=\"{x1:.1}\" y1=\"{y1:.1}\" x2=\"{x2:.1}\" y2=\"{y2:.1}\" stroke=\"{color}\"/>")
}

fn text(x: f64, y: f64, anchor: &str, words: &str) -> String {
    format!("<text x=\"{x:.1}\" y=\"{y:.1}\" text-anchor=\"{anchor}\">{words}</text>")
}
