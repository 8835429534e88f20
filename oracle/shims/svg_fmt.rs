//! Stands in for the crate svg_fmt: only the names that etagere's `dump_svg` and `dump_into_svg` use.
//!
//! The text is not svg_fmt's. It is SVG with the same numbers and fill colours, the stroke left out;
//! nothing compares it with the crate's. The driver reads it to see which stretches are free.

use std::fmt::{Display, Formatter, Result};

pub struct BeginSvg {
    pub w: f32,
    pub h: f32,
}

impl Display for BeginSvg {
    fn fmt(&self, f: &mut Formatter) -> Result {
        write!(f, r#"<svg xmlns="http://www.w3.org/2000/svg" viewBox="0 0 {} {}">"#, self.w, self.h)
    }
}

pub struct EndSvg;

impl Display for EndSvg {
    fn fmt(&self, f: &mut Formatter) -> Result {
        write!(f, "</svg>")
    }
}

#[derive(Copy, Clone)]
pub struct Color {
    pub r: u8,
    pub g: u8,
    pub b: u8,
}

pub fn rgb(r: u8, g: u8, b: u8) -> Color {
    Color { r, g, b }
}

pub fn black() -> Color {
    rgb(0, 0, 0)
}

pub enum Stroke {
    Color(Color, f32),
}

pub struct Rectangle {
    x: f32,
    y: f32,
    w: f32,
    h: f32,
    fill: Color,
}

pub fn rectangle(x: f32, y: f32, w: f32, h: f32) -> Rectangle {
    Rectangle { x, y, w, h, fill: black() }
}

impl Rectangle {
    pub fn fill(self, fill: Color) -> Self {
        Rectangle { fill, ..self }
    }

    pub fn stroke(self, _: Stroke) -> Self {
        self
    }
}

impl Display for Rectangle {
    fn fmt(&self, f: &mut Formatter) -> Result {
        let Color { r, g, b } = self.fill;
        write!(
            f,
            r#"<rect x="{}" y="{}" width="{}" height="{}" fill="rgb({},{},{})"/>"#,
            self.x, self.y, self.w, self.h, r, g, b
        )
    }
}
