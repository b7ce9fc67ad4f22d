//! Drawings as SVG text.

use std::fmt::Write;

/// A colour for each side; ours is the first.
pub const COLOURS: [&str; 3] = ["#222222", "#c8603c", "#3c78b4"];

pub enum Align {
    Start,
    Middle,
    End,
}

pub struct Chart {
    width: f64,
    height: f64,
    shapes: String,
}

impl Chart {
    pub fn new(width: f64, height: f64) -> Self {
        Chart {
            width,
            height,
            shapes: String::new(),
        }
    }

    pub fn line(&mut self, from: (f64, f64), to: (f64, f64), colour: &str) {
        let ((x1, y1), (x2, y2)) = (from, to);
        self.shape(format_args!(
            r#"<line x1="{x1:.1}" y1="{y1:.1}" x2="{x2:.1}" y2="{y2:.1}" stroke="{colour}"/>"#
        ));
    }

    pub fn bar(&mut self, (x, y): (f64, f64), (width, height): (f64, f64), colour: &str) {
        self.shape(format_args!(
            r#"<rect x="{x:.1}" y="{y:.1}" width="{width:.1}" height="{height:.1}" fill="{colour}"/>"#
        ));
    }

    pub fn point(&mut self, (x, y): (f64, f64), colour: &str) {
        self.shape(format_args!(
            r#"<circle cx="{x:.1}" cy="{y:.1}" r="2.5" fill="{colour}"/>"#
        ));
    }

    pub fn text(&mut self, (x, y): (f64, f64), align: Align, text: &str) {
        let anchor = match align {
            Align::Start => "start",
            Align::Middle => "middle",
            Align::End => "end",
        };
        self.shape(format_args!(
            r#"<text x="{x:.1}" y="{y:.1}" text-anchor="{anchor}">{text}</text>"#
        ));
    }

    fn shape(&mut self, shape: std::fmt::Arguments) {
        writeln!(self.shapes, "{shape}").expect("a text has room");
    }

    pub fn svg(&self) -> String {
        let (width, height) = (self.width, self.height);
        format!(
            r#"<svg xmlns="http://www.w3.org/2000/svg" width="{width}" height="{height}" viewBox="0 0 {width} {height}" font-family="sans-serif" font-size="11">
<rect width="100%" height="100%" fill="white"/>
{}</svg>
"#,
            self.shapes
        )
    }
}
