//! A chart's drawing: words, lines and boxes over an axis of whole numbers.

use crate::command::markup::escaped;
use crate::command::words::signed;
use std::fmt::Write;

/// Sizes in pixels. A character of the fixed-width font is 7.3 wide at most.
const CHARACTER: f64 = 7.3;
pub const MARGIN: f64 = 14.0;
pub const PLOT: f64 = 680.0;
pub const ROW: f64 = 22.0;
pub const BAR: f64 = 14.0;
pub const TOP: f64 = 88.0;
const BOTTOM: f64 = 44.0;

/// The room between two labels of the axis.
const GAP: f64 = 18.0;

pub const GREY: &str = "fill=\"#555\"";

/// How wide a text is drawn.
pub fn width(text: &str) -> f64 {
    text.chars().count() as f64 * CHARACTER
}

/// The text, cut to so many characters.
pub fn shortened(text: &str, most: usize) -> String {
    if text.chars().count() <= most {
        return text.to_string();
    }
    let front: String = text.chars().take(most - 1).collect();
    format!("{front}…")
}

/// The least of 1, 2, 5, 10, 20, 50 … at which at most `most` steps fit.
fn tick(range: i64, most: i64) -> i64 {
    let mut power = 1;
    loop {
        for digit in [1, 2, 5] {
            if range / (digit * power) <= most {
                return digit * power;
            }
        }
        power *= 10;
    }
}

/// The numbers that the axis spans, and the one that is marked.
#[derive(Clone, Copy)]
pub struct Axis {
    least: i64,
    greatest: i64,
    mark: i64,
}

impl Axis {
    /// From 0, or from less where numbers are negative, to the greatest of them.
    pub fn over(numbers: impl Iterator<Item = i64>, mark: i64) -> Axis {
        let (mut least, mut greatest) = (0, 1);
        for number in numbers.chain([mark]) {
            least = least.min(number);
            greatest = greatest.max(number);
        }
        Axis {
            least,
            greatest,
            mark,
        }
    }

    /// The widest label.
    fn label(&self) -> f64 {
        width(&signed(self.greatest)).max(width(&signed(self.least)))
    }
}

/// Where the plot begins, how high it is, its axis, and how far to the right something is drawn.
pub struct Canvas {
    left: f64,
    height: f64,
    axis: Axis,
    right: f64,
    text: String,
}

impl Canvas {
    /// A plot behind labels of this width, and so high.
    pub fn new(labels: f64, height: f64, axis: Axis) -> Canvas {
        let left = MARGIN + labels + 10.0;
        Canvas {
            left,
            height,
            axis,
            right: left + PLOT + 8.0 + axis.label(),
            text: String::new(),
        }
    }

    pub fn left(&self) -> f64 {
        self.left
    }

    pub fn x(&self, number: i64) -> f64 {
        let range = (self.axis.greatest - self.axis.least) as f64;
        self.left + (number - self.axis.least) as f64 / range * PLOT
    }

    pub fn put(&mut self, line: &str) {
        writeln!(self.text, "{line}").expect("a string takes every line");
    }

    pub fn words(&mut self, x: f64, y: f64, anchor: &str, style: &str, words: &str) {
        if anchor == "start" {
            self.right = self.right.max(x + width(words));
        }
        let words = escaped(words);
        self.put(&format!(
            "<text x=\"{x:.1}\" y=\"{y:.1}\" text-anchor=\"{anchor}\" xml:space=\"preserve\" {style}>{words}</text>"
        ));
    }

    fn upright(&mut self, x: f64, style: &str) {
        let (from, to) = (TOP - 4.0, TOP + self.height + 4.0);
        self.put(&format!(
            "<line x1=\"{x:.1}\" y1=\"{from:.1}\" x2=\"{x:.1}\" y2=\"{to:.1}\" {style}/>"
        ));
    }

    /// Upright lines with their numbers above and below, and the line at the number that is marked.
    pub fn draw_axis(&mut self) {
        let Axis {
            least,
            greatest,
            mark,
        } = self.axis;
        let label = self.axis.label() + GAP;
        let step = tick(greatest - least, (PLOT / label) as i64);
        let mut number = -(-least).div_euclid(step) * step;
        while number <= greatest {
            let x = self.x(number);
            let words = signed(number);
            self.upright(x, "stroke=\"#ddd\"");
            self.words(x, TOP - 10.0, "middle", GREY, &words);
            let below = TOP + self.height + 20.0;
            self.words(x, below, "middle", GREY, &words);
            number += step;
        }
        self.upright(self.x(mark), "stroke=\"#b03030\" stroke-width=\"1.5\"");
    }

    /// The drawing with its heading and the note below it.
    pub fn finish(mut self, heading: &str, note: &str) -> String {
        let drawn = std::mem::take(&mut self.text);
        self.words(MARGIN, 26.0, "start", "font-weight=\"bold\"", heading);
        self.words(MARGIN, 46.0, "start", GREY, note);
        let head = std::mem::take(&mut self.text);
        let (wide, high) = (self.right + MARGIN, TOP + self.height + BOTTOM);
        format!(
            "<svg xmlns=\"http://www.w3.org/2000/svg\" width=\"{wide:.0}\" height=\"{high:.0}\" \
             viewBox=\"0 0 {wide:.0} {high:.0}\" font-family=\"DejaVu Sans Mono, monospace\" font-size=\"12\">\n\
             <title>{}</title>\n<rect width=\"100%\" height=\"100%\" fill=\"white\"/>\n{head}{drawn}</svg>\n",
            escaped(heading)
        )
    }
}
