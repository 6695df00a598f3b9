//! Draws the speeds of running as a bar chart, in SVG. Nothing is measured here, and no file is
//! written.

use crate::shown;

/// The speeds of one grammar in MiB/s, each of the library, if it was linked, and of plain Rust.
pub struct Speeds {
    /// The grammar.
    pub name: &'static str,
    /// Of runs with a table.
    pub with_table: [Option<f64>; 2],
    /// Of runs without one.
    pub without_table: [Option<f64>; 2],
}

/// The chart's width. This and all numbers below are in pixels.
const WIDTH: usize = 700;

/// Where the first bar begins, from the top.
const TOP: usize = 78;

/// The height of a bar.
const BAR: usize = 13;

/// From a pair of bars to the next one of the same grammar.
const PAIR: usize = 33;

/// From the first bar of a grammar to the first of the next.
const GRAMMAR: usize = 82;

/// Where all bars begin, from the left.
const LEFT: usize = 220;

/// The width of the longest bar. The rest is for its number.
const LONGEST: f64 = 420.0;

/// Colours for light pages and for dark ones. The chart has a ground of its own, so that it can be
/// read on a dark page too where a viewer knows of light pages only.
const STYLE: &str = "\
<style>
  text { font: 13px sans-serif; fill: #1f2328; }
  .name { font-weight: bold; }
  .ground { fill: #ffffff; }
  .library { fill: #2f6fb7; }
  .plain { fill: #a3a9b1; }
  @media (prefers-color-scheme: dark) {
    text { fill: #e6edf3; }
    .ground { fill: #0d1117; }
    .library { fill: #5b9be0; }
    .plain { fill: #6e7681; }
  }
</style>
";

/// A chart of some speeds, which were measured on a stack of so many entries.
pub fn chart(entries: usize, speeds: &[Speeds]) -> String {
    let height = TOP + GRAMMAR * speeds.len();
    let title =
        format!("Speed of running, MiB/s: texts of almost 1 MiB, a stack of {entries} entries");
    let mut svg = head(WIDTH, height, &title, STYLE);
    svg.push_str(&bar("library", 16, 42, 12.0, 12));
    svg.push_str(&text("key", 34, 53, "the library, which is proved"));
    svg.push_str(&bar("plain", LEFT, 42, 12.0, 12));
    svg.push_str(&text("key", LEFT + 18, 53, "plain Rust that does the same"));
    let fastest = fastest(speeds);
    for (index, own) in speeds.iter().enumerate() {
        let top = TOP + GRAMMAR * index;
        svg.push_str(&text("name", 16, top + BAR, own.name));
        svg.push_str(&pair(top, "with a table", own.with_table, fastest));
        svg.push_str(&pair(top + PAIR, "without", own.without_table, fastest));
    }
    svg.push_str("</svg>\n");
    svg
}

/// What an SVG file begins with: its size, some style, a ground and a title.
pub fn head(width: usize, height: usize, title: &str, style: &str) -> String {
    let mut svg = format!(
        "<svg xmlns=\"http://www.w3.org/2000/svg\" width=\"{width}\" height=\"{height}\" \
        viewBox=\"0 0 {width} {height}\" role=\"img\">\n<title>{title}</title>\n"
    );
    svg.push_str(style);
    svg.push_str(&bar("ground", 0, 0, width as f64, height));
    svg.push_str(&text("name", 16, 28, title));
    svg
}

/// The highest of all speeds, which gets the longest bar.
fn fastest(speeds: &[Speeds]) -> f64 {
    let all = speeds
        .iter()
        .flat_map(|own| own.with_table.iter().chain(&own.without_table));
    all.flatten().copied().fold(1.0, f64::max)
}

/// A label and two bars, one below the other, each with its number.
fn pair(top: usize, label: &str, speeds: [Option<f64>; 2], fastest: f64) -> String {
    let mut svg = text("key", 130, top + BAR, label);
    for (index, class) in ["library", "plain"].iter().enumerate() {
        let width = speeds[index].unwrap_or(0.0) / fastest * LONGEST;
        let top = top + BAR * index;
        let end = LEFT + width as usize + 6;
        svg.push_str(&bar(class, LEFT, top, width, BAR));
        svg.push_str(&text("key", end, top + BAR - 2, &shown(speeds[index])));
    }
    svg
}

pub fn bar(class: &str, x: usize, y: usize, width: f64, height: usize) -> String {
    format!(
        "<rect class=\"{class}\" x=\"{x}\" y=\"{y}\" width=\"{width:.1}\" height=\"{height}\"/>\n"
    )
}

/// A line of text that begins at `x` and stands on `y`. It has none of the signs that SVG escapes.
pub fn text(class: &str, x: usize, y: usize, line: &str) -> String {
    format!("<text class=\"{class}\" x=\"{x}\" y=\"{y}\">{line}</text>\n")
}

#[cfg(test)]
mod tests {
    use super::*;

    #[test]
    fn the_fastest_has_the_longest_bar() {
        let speeds = Speeds {
            name: "one",
            with_table: [Some(500.0), Some(1_000.0)],
            without_table: [None, Some(250.0)],
        };
        let svg = chart(4_096, &[speeds]);
        for width in ["210.0", "420.0", "0.0", "105.0"] {
            assert!(svg.contains(&format!(" width=\"{width}\" height=\"13\"")));
        }
        for line in ["one", "with a table", "without", "500", "1000", "–", "250"] {
            assert!(svg.contains(&format!(">{line}</text>")), "{line}");
        }
    }

    #[test]
    fn the_chart_goes_down_by_grammars() {
        let speeds = |name| Speeds {
            name,
            with_table: [Some(1.0); 2],
            without_table: [Some(1.0); 2],
        };
        let svg = chart(1, &["one", "two", "three"].map(speeds));
        assert!(svg.starts_with("<svg ") && svg.ends_with("</svg>\n"));
        assert!(svg.contains("width=\"700\" height=\"324\" viewBox=\"0 0 700 324\""));
        // The ground, the two keys, and four bars of each grammar.
        assert_eq!(svg.matches("<rect ").count(), 3 + 4 * 3);
    }
}
