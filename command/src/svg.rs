//! The text of an SVG picture: a heading, a frame with axes at its edges, and what is drawn in it.

use std::fmt::{Display, Write};

pub const WIDTH: f64 = 960.0;
const HEIGHT: f64 = 600.0;

/// The edges of the frame; the right one differs.
pub const LEFT: f64 = 110.0;
pub const TOP: f64 = 104.0;
pub const BOTTOM: f64 = 536.0;

pub const INK: &str = "#222222";
pub const GREY: &str = "#777777";
pub const RED: &str = "#c8351f";
const FAINT: &str = "#e4e4e4";

/// The text of an SVG.
pub struct Picture(String);

impl Picture {
    pub fn new() -> Picture {
        let mut picture = Picture(String::new());
        picture.put(format_args!(
            "<svg xmlns=\"http://www.w3.org/2000/svg\" viewBox=\"0 0 {WIDTH} {HEIGHT}\" \
             width=\"{WIDTH}\" height=\"{HEIGHT}\" font-family=\"Helvetica, Arial, sans-serif\">"
        ));
        picture.put("<rect width=\"100%\" height=\"100%\" fill=\"white\"/>");
        picture
    }

    pub fn put(&mut self, element: impl Display) {
        writeln!(self.0, "{element}").expect("a string takes any text");
    }

    pub fn end(mut self) -> String {
        self.put("</svg>");
        self.0
    }

    /// The title and a line under it.
    pub fn heading(&mut self, title: &str, under: &str) {
        self.put(format_args!("<title>{}</title>", escaped(title)));
        self.label((LEFT, 36.0), "start", INK, 20, title);
        self.label((LEFT, 60.0), "start", GREY, 14, under);
    }

    pub fn frame(&mut self, right: f64) {
        self.put(format_args!(
            "<rect x=\"{LEFT}\" y=\"{TOP}\" width=\"{}\" height=\"{}\" fill=\"none\" \
             stroke=\"{GREY}\"/>",
            right - LEFT,
            BOTTOM - TOP
        ));
    }

    pub fn axis_names(&mut self, across: &str, up: &str, right: f64) {
        self.label(((LEFT + right) / 2.0, BOTTOM + 50.0), "middle", INK, 14, across);
        self.label((LEFT, TOP - 12.0), "start", INK, 14, up);
    }

    /// A faint line of a grid.
    pub fn rule(&mut self, path: impl Display) {
        self.put(format_args!("<path d=\"{path}\" stroke=\"{FAINT}\"/>"));
    }

    /// A grey band from top to bottom.
    pub fn band(&mut self, from: f64, to: f64) {
        let (width, height) = (to - from, BOTTOM - TOP);
        self.put(format_args!(
            "<rect class=\"gap\" x=\"{from:.1}\" y=\"{TOP}\" width=\"{width:.1}\" \
             height=\"{height}\" fill=\"#efefef\"/>"
        ));
    }

    pub fn dot(&mut self, class: &str, (x, y): (f64, f64), radius: f64, fill: &str, edge: &str) {
        self.put(format_args!(
            "<circle class=\"{class}\" cx=\"{x:.1}\" cy=\"{y:.1}\" r=\"{radius}\" \
             fill=\"{fill}\" stroke=\"{edge}\" stroke-width=\"1.5\"/>"
        ));
    }

    pub fn ring(&mut self, class: &str, (x, y): (f64, f64), radius: f64, colour: &str) {
        self.put(format_args!(
            "<circle class=\"{class}\" cx=\"{x:.1}\" cy=\"{y:.1}\" r=\"{radius}\" fill=\"none\" \
             stroke=\"{colour}\" stroke-width=\"2.5\"/>"
        ));
    }

    pub fn diamond(&mut self, class: &str, (x, y): (f64, f64), size: f64, colour: &str) {
        let y = y - size;
        self.put(format_args!(
            "<path class=\"{class}\" d=\"M {x:.1} {y:.1} l {size} {size} l -{size} {size} l -{size} \
             -{size} z\" fill=\"none\" stroke=\"{colour}\" stroke-width=\"2.5\"/>"
        ));
    }

    /// A text with a white edge, so that it can be read over lines.
    pub fn label(&mut self, (x, y): (f64, f64), anchor: &str, colour: &str, size: u8, text: &str) {
        self.put(format_args!(
            "<text x=\"{x:.1}\" y=\"{y:.1}\" text-anchor=\"{anchor}\" font-size=\"{size}\" \
             fill=\"{colour}\" stroke=\"white\" stroke-width=\"3\" paint-order=\"stroke\">{}</text>",
            escaped(text)
        ));
    }
}

/// A text without the characters that mean something in SVG.
fn escaped(text: &str) -> String {
    text.replace('&', "&amp;").replace('<', "&lt;").replace('>', "&gt;").replace('"', "&quot;")
}
