//! The figures as a drawing: two bars a row, nanoseconds an access.

use std::fmt::Write;

pub struct Bar {
    /// The row, and its calls.
    pub name: String,
    /// Nanoseconds an access.
    pub engine: f64,
    pub rust: f64,
}

impl Bar {
    pub fn ratio(&self) -> f64 {
        self.engine / self.rust
    }
}

const LEFT: f64 = 170.0;
const WIDTH: f64 = 420.0;
const RIGHT: f64 = 110.0;
const TOP: f64 = 40.0;
const ROW: f64 = 30.0;
const THICK: f64 = 10.0;

pub fn draw(bars: &[Bar]) -> String {
    let longest = bars
        .iter()
        .map(|bar| bar.engine.max(bar.rust))
        .fold(1.0, f64::max);
    let scale = WIDTH / longest;
    let (width, height) = (LEFT + WIDTH + RIGHT, TOP + ROW * bars.len() as f64 + 10.0);
    let mut svg = format!(
        "<svg xmlns=\"http://www.w3.org/2000/svg\" width=\"{width}\" height=\"{height}\" \
         font-family=\"sans-serif\" font-size=\"12\">\n\
         <rect width=\"100%\" height=\"100%\" fill=\"white\"/>\n\
         <text x=\"10\" y=\"20\">Nanoseconds an access: <tspan fill=\"#1b6ca8\">engine</tspan>, \
         <tspan fill=\"#888\">original Rust</tspan>; at the right the ratio</text>\n"
    );
    for (at, bar) in bars.iter().enumerate() {
        let y = TOP + ROW * at as f64;
        let text = y + 15.0;
        let mut add =
            |line: std::fmt::Arguments| writeln!(svg, "{line}").expect("a string takes all");
        add(format_args!(
            "<text x=\"10\" y=\"{text}\">{}</text>",
            bar.name
        ));
        for (down, length, fill) in [
            (0.0, bar.engine, "#1b6ca8"),
            (THICK + 1.0, bar.rust, "#888"),
        ] {
            add(format_args!(
                "<rect x=\"{LEFT}\" y=\"{}\" width=\"{:.1}\" height=\"{THICK}\" fill=\"{fill}\"/>",
                y + down,
                length * scale,
            ));
        }
        let end = LEFT + WIDTH + 10.0;
        add(format_args!(
            "<text x=\"{end}\" y=\"{text}\">{:.2} / {:.2} = {:.2}</text>",
            bar.engine,
            bar.rust,
            bar.ratio(),
        ));
    }
    svg + "</svg>\n"
}
