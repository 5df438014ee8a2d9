//! The elements of the picture, as text.

use std::fmt::Write;

/// Where a text begins, seen from the point that it is given.
#[derive(Clone, Copy, Debug, PartialEq, Eq)]
pub enum Anchor {
    /// It begins at the point.
    Start,
    /// The point is its middle.
    Middle,
    /// It ends at the point.
    End,
}

/// A rectangle.
#[derive(Clone, Copy, Debug)]
pub struct Area {
    /// Left edge.
    pub x: f64,
    /// Upper edge.
    pub y: f64,
    /// Its width.
    pub width: f64,
    /// Its height.
    pub height: f64,
}

/// What has been drawn so far.
#[derive(Clone, Debug, Default)]
pub struct Pen {
    drawn: String,
}

impl Pen {
    /// All that was drawn.
    pub fn drawn(self) -> String {
        self.drawn
    }

    /// A rectangle of a class.
    pub fn area(&mut self, class: &str, area: Area) {
        let Area {
            x,
            y,
            width,
            height,
        } = area;
        let (x, y) = (short(x), short(y));
        let (width, height) = (short(width), short(height));
        self.element(&format!(
            r#"<rect class="{class}" x="{x}" y="{y}" width="{width}" height="{height}"/>"#
        ));
    }

    /// A line of a class.
    pub fn line(&mut self, class: &str, from: (f64, f64), to: (f64, f64)) {
        let path = format!(
            "M{} {}L{} {}",
            short(from.0),
            short(from.1),
            short(to.0),
            short(to.1)
        );
        self.path(class, &path);
    }

    /// Lines through points, closed.
    pub fn shape(&mut self, class: &str, points: &[(f64, f64)]) {
        let points = points
            .iter()
            .map(|&(x, y)| format!("{} {}", short(x), short(y)));
        let points: Vec<String> = points.collect();
        self.path(class, &format!("M{}z", points.join("L")));
    }

    /// A path of a class.
    pub fn path(&mut self, class: &str, path: &str) {
        self.element(&format!(r#"<path class="{class}" d="{path}"/>"#));
    }

    /// Words of a class.
    pub fn words(&mut self, class: &str, anchor: Anchor, at: (f64, f64), words: &str) {
        let (x, y) = (short(at.0), short(at.1));
        let (anchor, words) = (anchor.attribute(), escaped(words));
        self.element(&format!(
            r#"<text class="{class}"{anchor} x="{x}" y="{y}">{words}</text>"#
        ));
    }

    /// Words that are read upwards.
    pub fn upwards(&mut self, class: &str, anchor: Anchor, at: (f64, f64), words: &str) {
        let (x, y) = (short(at.0), short(at.1));
        let (anchor, words) = (anchor.attribute(), escaped(words));
        self.element(&format!(
            r#"<text class="{class}"{anchor} transform="translate({x} {y})rotate(-90)">{words}</text>"#
        ));
    }

    /// An element as it is.
    pub fn element(&mut self, element: &str) {
        // A string takes everything.
        let _ = writeln!(self.drawn, "{element}");
    }
}

impl Anchor {
    fn attribute(self) -> &'static str {
        match self {
            Anchor::Start => "",
            Anchor::Middle => r#" text-anchor="middle""#,
            Anchor::End => r#" text-anchor="end""#,
        }
    }
}

/// A number with one digit behind the point, if it needs one.
pub fn short(number: f64) -> String {
    let text = format!("{number:.1}");
    match text.strip_suffix(".0") {
        Some("-0") => "0".to_string(),
        Some(whole) => whole.to_string(),
        None => text,
    }
}

/// Words as they may stand in an element; letters that no such text may have are shown as unknown.
pub fn escaped(words: &str) -> String {
    let letters = words.chars().map(|letter| match letter {
        '&' => "&amp;".to_string(),
        '<' => "&lt;".to_string(),
        '>' => "&gt;".to_string(),
        '"' => "&quot;".to_string(),
        '\t' => " ".to_string(),
        '\u{fffe}' | '\u{ffff}' => '\u{fffd}'.to_string(),
        letter if letter.is_control() => '\u{fffd}'.to_string(),
        letter => letter.to_string(),
    });
    letters.collect()
}

#[cfg(test)]
mod tests {
    use super::*;

    #[test]
    fn numbers_are_short() {
        assert_eq!(
            [3.0, 3.12, -0.01, 1120.0].map(short),
            ["3", "3.1", "0", "1120"]
        );
    }

    #[test]
    fn nothing_in_words_is_taken_for_an_element() {
        assert_eq!(
            escaped("<a b=\"&\">\t\0\u{ffff}"),
            "&lt;a b=&quot;&amp;&quot;&gt; \u{fffd}\u{fffd}"
        );
    }
}
