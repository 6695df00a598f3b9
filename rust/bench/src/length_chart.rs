//! Draws times against the lengths of texts as a line chart, in SVG, both on scales of logarithms: where the time
//! doubles with the length, a line rises as one step of lengths does. Nothing is measured here, and no file is written.

use crate::chart::{head, text};
use crate::shown;

/// The times of one kind of text, in milliseconds, one for each length.
pub struct Line {
    /// The rules and the text. Lines of the same name have the same colour.
    pub name: &'static str,
    /// With a table the line is dashed.
    pub with_table: bool,
    /// The times.
    pub times: Vec<f64>,
}

/// The chart's width. This and all numbers below are in pixels.
const WIDTH: usize = 700;

/// Where the first line of the key stands, from the top, and from one to the next.
const KEY: usize = 53;
const KEY_STEP: usize = 20;

/// The field of the lines: its left and right end, and its height.
const LEFT: f64 = 70.0;
const RIGHT: f64 = 610.0;
const HEIGHT: f64 = 340.0;

/// From the field to the lower end of the chart. The numbers of the lengths stand there.
const BELOW: usize = 50;

/// The numbers at the lines' ends are at least so far apart.
const APART: f64 = 14.0;

/// Colours for light pages and for dark ones, in the order of the names. The first is that of plain code in the chart
/// of speeds.
const STYLE: &str = "\
<style>
  text { font: 13px sans-serif; fill: #1f2328; }
  polyline { fill: none; stroke-width: 2; }
  .name { font-weight: bold; }
  .ground { fill: #ffffff; }
  .grid { stroke: #d0d7de; stroke-width: 1; }
  .with { stroke-dasharray: 6 4; }
  .colour0 { stroke: #8b929a; }
  .colour1 { stroke: #2f6fb7; }
  .colour2 { stroke: #c4601d; }
  .colour3 { stroke: #2d8a4e; }
  .colour4 { stroke: #8250c4; }
  @media (prefers-color-scheme: dark) {
    text { fill: #e6edf3; }
    .ground { fill: #0d1117; }
    .grid { stroke: #30363d; }
    .colour0 { stroke: #8b929a; }
    .colour1 { stroke: #5b9be0; }
    .colour2 { stroke: #e08a4f; }
    .colour3 { stroke: #57b377; }
    .colour4 { stroke: #ad85e6; }
  }
</style>
";

/// Where times and lengths lie in the field.
struct Scale {
    lengths: Vec<usize>,
    /// The powers of ten between which all times are.
    low: i32,
    high: i32,
    top: f64,
}

impl Scale {
    fn new(lengths: &[usize], lines: &[Line], top: usize) -> Scale {
        let times = || lines.iter().flat_map(|line| line.times.iter().copied());
        let least = times().fold(f64::INFINITY, f64::min).min(1.0);
        let most = times().fold(1.0, f64::max);
        Scale {
            lengths: lengths.to_vec(),
            low: least.log10().floor() as i32,
            high: (most.log10().ceil() as i32).max(1),
            top: top as f64,
        }
    }

    fn x(&self, length: usize) -> f64 {
        let logarithm = |length: usize| (length as f64).log2();
        let first = logarithm(self.lengths[0]);
        let last = logarithm(self.lengths[self.lengths.len() - 1]);
        LEFT + (logarithm(length) - first) / (last - first) * (RIGHT - LEFT)
    }

    fn y(&self, time: f64) -> f64 {
        let height = (time.log10() - f64::from(self.low)) / f64::from(self.high - self.low);
        self.top + HEIGHT * (1.0 - height)
    }
}

/// A chart of some times, which were measured for texts of these lengths.
pub fn chart(lengths: &[usize], lines: &[Line]) -> String {
    let names = names(lines);
    let top = KEY + KEY_STEP * (names.len() + 1);
    let height = top + HEIGHT as usize + BELOW;
    let title = "Time of a run against the length of its text: long walks beside sheet D";
    let scale = Scale::new(lengths, lines, top);
    let mut svg = head(WIDTH, height, title, STYLE);
    svg.push_str(&key(&names));
    svg.push_str(&grid(&scale));
    for own in lines {
        let colour = names.iter().position(|name| *name == own.name);
        svg.push_str(&line(&scale, own, colour.unwrap_or(0)));
    }
    svg.push_str(&ends(&scale, lines));
    svg.push_str("</svg>\n");
    svg
}

/// The names of the lines, each once.
fn names(lines: &[Line]) -> Vec<&'static str> {
    let mut names: Vec<&'static str> = lines.iter().map(|line| line.name).collect();
    names.dedup();
    names
}

/// A short line for each name, in its colour, and one for each way of running.
fn key(names: &[&str]) -> String {
    let stroke = |class: &str, x: usize, y: usize| {
        let points = format!("{x},{y} {},{y}", x + 28);
        format!("<polyline class=\"{class}\" points=\"{points}\"/>\n")
    };
    let mut svg = stroke("colour0", 16, KEY - 4);
    svg.push_str(&text("label", 52, KEY, "without a table"));
    svg.push_str(&stroke("colour0 with", 180, KEY - 4));
    svg.push_str(&text("label", 216, KEY, "with a table"));
    for (index, name) in names.iter().enumerate() {
        let y = KEY + KEY_STEP * (index + 1);
        svg.push_str(&stroke(&format!("colour{index}"), 16, y - 4));
        svg.push_str(&text("label", 52, y, name));
    }
    svg
}

/// Lines for the lengths and for powers of ten of times, with their numbers.
fn grid(scale: &Scale) -> String {
    let bottom = scale.top + HEIGHT;
    let mut svg = String::new();
    for &length in &scale.lengths {
        let x = scale.x(length);
        svg.push_str(&rule([x, scale.top], [x, bottom]));
        let label = match length >> 10 {
            1_024 => "1 MiB".to_owned(),
            kibibytes => format!("{kibibytes} KiB"),
        };
        svg.push_str(&text(
            "label",
            x as usize - 22,
            bottom as usize + 20,
            &label,
        ));
    }
    for power in scale.low..=scale.high {
        let time = 10_f64.powi(power);
        let y = scale.y(time);
        svg.push_str(&rule([LEFT, y], [RIGHT, y]));
        svg.push_str(&text("label", 16, y as usize + 4, &format!("{time} ms")));
    }
    svg
}

fn rule([x, y]: [f64; 2], [end_x, end_y]: [f64; 2]) -> String {
    format!(
        "<line class=\"grid\" x1=\"{x:.1}\" y1=\"{y:.1}\" x2=\"{end_x:.1}\" y2=\"{end_y:.1}\"/>\n"
    )
}

fn line(scale: &Scale, own: &Line, colour: usize) -> String {
    let points: Vec<String> = scale
        .lengths
        .iter()
        .zip(&own.times)
        .map(|(&length, &time)| format!("{:.1},{:.1}", scale.x(length), scale.y(time)))
        .collect();
    let dashes = if own.with_table { " with" } else { "" };
    let points = points.join(" ");
    format!("<polyline class=\"colour{colour}{dashes}\" points=\"{points}\"/>\n")
}

/// The last time of each line beside its end, moved down where it would lie on another.
fn ends(scale: &Scale, lines: &[Line]) -> String {
    let mut last: Vec<f64> = lines
        .iter()
        .filter_map(|line| line.times.last().copied())
        .collect();
    last.sort_by(|one, other| other.total_cmp(one));
    let mut svg = String::new();
    let mut before = 0.0;
    for time in last {
        let y = (scale.y(time) + 4.0).max(before + APART);
        let label = format!("{} ms", shown(Some(time)));
        svg.push_str(&text("end", RIGHT as usize + 8, y as usize, &label));
        before = y;
    }
    svg
}

#[cfg(test)]
mod tests {
    use super::*;

    fn example(with_table: bool, times: &[f64]) -> Line {
        Line {
            name: "one",
            with_table,
            times: times.to_vec(),
        }
    }

    /// From the least length to the greatest the line of a time that grows as the length does rises as far as from 1 ms
    /// to that time.
    #[test]
    fn both_scales_are_of_logarithms() {
        let lengths = [1 << 16, 1 << 18, 1 << 20];
        let lines = [example(false, &[1.0, 10.0, 100.0])];
        let svg = chart(&lengths, &lines);
        // One name: the field begins at 93 and ends at 433.
        assert!(svg.contains(
            "<polyline class=\"colour0\" points=\"70.0,433.0 340.0,263.0 610.0,93.0\"/>"
        ));
        for label in [
            "64 KiB", "256 KiB", "1 MiB", "1 ms", "10 ms", "100 ms", "one",
        ] {
            assert!(svg.contains(&format!(">{label}</text>")), "{label}");
        }
    }

    #[test]
    fn numbers_at_the_ends_lie_apart() {
        let lengths = [1 << 16, 1 << 20];
        let lines = [example(false, &[0.5, 5.0]), example(true, &[0.5, 5.0])];
        let svg = chart(&lengths, &lines);
        assert!(svg.starts_with("<svg ") && svg.ends_with("</svg>\n"));
        assert!(svg.contains("<polyline class=\"colour0 with\" points="));
        // From 0.1 ms to 10 ms: 5 ms is at 93 + 340 × 0.15, and the second number 14 further down.
        assert!(svg.contains("y=\"148\">5.00 ms</text>"), "{svg}");
        assert!(svg.contains("y=\"162\">5.00 ms</text>"), "{svg}");
    }
}
