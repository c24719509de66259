//! Drawing: shapes, text, axes and legends, as SVG text. A picture has a ground of its own, so that it reads the same
//! on a light and on a dark page. Coordinates are pixels, downwards from the top. Nothing here uses more
//! than the four operations, so that the same numbers give the same picture on every computer.

use std::fmt::Write;

/// Colours that colour-blind readers tell apart (Okabe and Ito).
pub const BLUE: &str = "#0072b2";
pub const VERMILION: &str = "#d55e00";
pub const ORANGE: &str = "#e69f00";
const INK: &str = "#222222";
const GRID: &str = "#dddddd";
const GROUND: &str = "#ffffff";

/// Where text stands from its point.
#[derive(Clone, Copy)]
pub enum Anchor {
    Start,
    Middle,
    End,
}

/// How a line is drawn; `dashes` is empty, or lengths of dashes and gaps.
#[derive(Clone, Copy)]
pub struct Stroke {
    pub colour: &'static str,
    pub width: f64,
    pub dashes: &'static str,
}

const THIN: Stroke = Stroke { colour: GRID, width: 1.0, dashes: "" };
pub const EDGE: Stroke = Stroke { colour: INK, width: 1.2, dashes: "" };

pub struct Svg {
    width: u32,
    height: u32,
    body: String,
}

impl Svg {
    pub fn new(width: u32, height: u32, title: &str) -> Svg {
        let mut svg = Svg { width, height, body: String::new() };
        svg.add(format!("<title>{}</title>", escaped(title)));
        svg.rectangle(0.0, 0.0, width as f64, height as f64, GROUND);
        svg.text(width as f64 / 2.0, 26.0, 17, Anchor::Middle, title);
        svg
    }

    /// The whole text of the picture.
    pub fn finish(self) -> String {
        let Svg { width, height, body } = self;
        format!(
            "<svg xmlns=\"http://www.w3.org/2000/svg\" width=\"{width}\" height=\"{height}\" viewBox=\"0 0 {width} \
             {height}\" font-family=\"Helvetica, Arial, sans-serif\" fill=\"{INK}\">\n{body}</svg>\n"
        )
    }

    fn add(&mut self, element: String) {
        self.body.push_str(&element);
        self.body.push('\n');
    }

    pub fn rectangle(&mut self, x: f64, y: f64, width: f64, height: f64, fill: &str) {
        self.add(format!(
            "<rect x=\"{x:.1}\" y=\"{y:.1}\" width=\"{width:.1}\" height=\"{height:.1}\" fill=\"{fill}\"/>"
        ));
    }

    pub fn dot(&mut self, x: f64, y: f64, fill: &str) {
        self.add(format!("<circle cx=\"{x:.1}\" cy=\"{y:.1}\" r=\"2.6\" fill=\"{fill}\"/>"));
    }

    /// A line through points.
    pub fn line(&mut self, points: &[(f64, f64)], stroke: Stroke) {
        let mut through = String::new();
        for (x, y) in points {
            write!(through, " {x:.1},{y:.1}").expect("text can grow");
        }
        let Stroke { colour, width, dashes } = stroke;
        let dashes = if dashes.is_empty() { String::new() } else { format!(" stroke-dasharray=\"{dashes}\"") };
        let points = through.trim_start();
        self.add(format!(
            "<polyline points=\"{points}\" fill=\"none\" stroke=\"{colour}\" stroke-width=\"{width}\"{dashes}/>"
        ));
    }

    pub fn text(&mut self, x: f64, y: f64, size: u32, anchor: Anchor, text: &str) {
        self.placed(&format!("x=\"{x:.1}\" y=\"{y:.1}\""), size, anchor, text);
    }

    /// Text that runs upwards, its middle at the point.
    pub fn upward(&mut self, x: f64, y: f64, size: u32, text: &str) {
        self.placed(&format!("transform=\"translate({x:.1} {y:.1}) rotate(-90)\""), size, Anchor::Middle, text);
    }

    fn placed(&mut self, place: &str, size: u32, anchor: Anchor, text: &str) {
        let anchor = match anchor {
            Anchor::Start => "start",
            Anchor::Middle => "middle",
            Anchor::End => "end",
        };
        self.add(format!("<text {place} font-size=\"{size}\" text-anchor=\"{anchor}\">{}</text>", escaped(text)));
    }

    /// A line of a legend: a piece of line, and what it stands for.
    pub fn legend_line(&mut self, x: f64, y: f64, stroke: Stroke, text: &str) {
        self.line(&[(x, y - 4.0), (x + 34.0, y - 4.0)], stroke);
        self.text(x + 41.0, y, 12, Anchor::Start, text);
    }

    /// A line of a legend: a patch, and what it stands for.
    pub fn legend_patch(&mut self, x: f64, y: f64, fill: &str, text: &str) {
        self.rectangle(x, y - 10.0, 12.0, 12.0, fill);
        self.text(x + 18.0, y, 12, Anchor::Start, text);
    }
}

fn escaped(text: &str) -> String {
    text.replace('&', "&amp;").replace('<', "&lt;").replace('>', "&gt;")
}

/// The frame of a diagram, and the values at its sides.
pub struct Panel {
    pub left: f64,
    pub right: f64,
    pub top: f64,
    pub bottom: f64,
    /// What stands at the left and at the right.
    pub across: (f64, f64),
    /// What stands at the bottom and at the top; for a logarithmic scale the caller gives logarithms.
    pub up: (f64, f64),
}

impl Panel {
    pub fn x(&self, value: f64) -> f64 {
        self.left + (value - self.across.0) * (self.right - self.left) / (self.across.1 - self.across.0)
    }

    pub fn y(&self, value: f64) -> f64 {
        self.bottom - (value - self.up.0) * (self.bottom - self.top) / (self.up.1 - self.up.0)
    }

    /// Draws the axes with their labels, and a line of the grid at each tick upwards.
    pub fn axes(&self, svg: &mut Svg, across: (&[(f64, String)], &str), up: (&[(f64, String)], &str)) {
        for (value, text) in up.0 {
            let y = self.y(*value);
            svg.line(&[(self.left, y), (self.right, y)], THIN);
            svg.text(self.left - 7.0, y + 4.0, 11, Anchor::End, text);
        }
        for (value, text) in across.0 {
            let x = self.x(*value);
            svg.line(&[(x, self.bottom), (x, self.bottom + 5.0)], EDGE);
            svg.text(x, self.bottom + 18.0, 11, Anchor::Middle, text);
        }
        svg.line(&[(self.left, self.top), (self.left, self.bottom), (self.right, self.bottom)], EDGE);
        svg.text((self.left + self.right) / 2.0, self.bottom + 38.0, 13, Anchor::Middle, across.1);
        svg.upward(self.left - 44.0, (self.top + self.bottom) / 2.0, 13, up.1);
    }
}
