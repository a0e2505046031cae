//! Plain SVG: shapes and text by attributes, without script or style sheet. Lengths are in tenths of a pixel, whole
//! numbers, so that the same table gives the same bytes on every machine.

use std::fmt::Write;

/// So many characters has a line of the file at most.
const WIDTH: usize = 110;
const LONG_WORDS: usize = 40;

pub struct Svg {
    text: String,
}

/// "12" or "12.5" pixels.
pub fn px(tenths: i64) -> String {
    match tenths % 10 {
        0 => (tenths / 10).to_string(),
        tenth => format!("{}{}.{}", if tenths < 0 { "-" } else { "" }, tenths.abs() / 10, tenth.abs()),
    }
}

impl Svg {
    pub fn new(width: i64, height: i64, title: &str) -> Svg {
        let (w, h) = (px(width), px(height));
        let text = format!(
            "<svg xmlns=\"http://www.w3.org/2000/svg\" width=\"{w}\" height=\"{h}\" viewBox=\"0 0 {w} {h}\"\n  \
            font-family=\"DejaVu Sans, Verdana, Arial, sans-serif\" font-size=\"12\">\n\
            <title>{title}</title>\n<rect width=\"{w}\" height=\"{h}\" fill=\"#ffffff\"/>\n"
        );
        Svg { text }
    }

    /// Words that need no escape. Long ones have a line of their own: SVG does not show the line end before them.
    pub fn text(&mut self, (x, y): (i64, i64), attributes: &str, words: &str) {
        let end = if words.len() > LONG_WORDS { "\n" } else { "" };
        let _ = writeln!(self.text, "<text x=\"{}\" y=\"{}\"{attributes}>{end}{words}</text>", px(x), px(y));
    }

    /// Shapes of one kind as one path, or nothing where there are none.
    pub fn path(&mut self, attributes: &str, shapes: &[String]) {
        if shapes.is_empty() {
            return;
        }
        let _ = writeln!(self.text, "<path {attributes} d=\"");
        let mut line = String::new();
        for shape in shapes {
            if line.len() + shape.len() > WIDTH {
                let _ = writeln!(self.text, "{line}");
                line.clear();
            }
            line += shape;
        }
        let _ = writeln!(self.text, "{line}\"/>");
    }

    pub fn ended(mut self) -> String {
        self.text += "</svg>\n";
        self.text
    }
}

pub fn rectangle(x: i64, y: i64, width: i64, height: i64) -> String {
    format!("M{} {}h{}v{}h{}z", px(x), px(y), px(width), px(height), px(-width))
}

pub fn across(x: i64, y: i64, width: i64) -> String {
    format!("M{} {}h{}", px(x), px(y), px(width))
}

pub fn down(x: i64, y: i64, height: i64) -> String {
    format!("M{} {}v{}", px(x), px(y), px(height))
}

/// A triangle of this height with its point here: pointing up, or down where the height is negative.
pub fn arrow(x: i64, y: i64, height: i64) -> String {
    let half = height.abs() * 2 / 3;
    format!("M{} {}l{} {}h{}z", px(x), px(y), px(half), px(height), px(-2 * half))
}

#[cfg(test)]
mod tests {
    use super::*;

    #[test]
    fn tenths_as_pixels() {
        assert_eq!([0, 5, 10, 125, -5, -10, -125].map(px), ["0", "0.5", "1", "12.5", "-0.5", "-1", "-12.5"]);
    }

    #[test]
    fn long_paths_are_broken_between_shapes() {
        let mut svg = Svg::new(100, 100, "a");
        svg.path("fill=\"none\"", &[]);
        svg.path("fill=\"none\"", &vec![rectangle(10_000, 10_005, 12, 180); 50]);
        let text = svg.ended();
        assert!(text.lines().all(|line| line.len() <= 120), "{text}");
        assert_eq!(text.matches("M1000 1000.5h1.2v18h-1.2z").count(), 50);
    }
}
