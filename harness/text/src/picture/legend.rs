//! The legend at the foot of the picture: the requests, the scale and the marks.

use crate::codes::request;

use super::bars;
use super::colours::{class, letters, MEANINGS};
use super::layout::{MARGIN, PAGE};
use super::letters::{count, width};
use super::svg::{short, Anchor, Area, Pen};

/// The size of the letters.
const SIZE: f64 = 10.0;
/// The height of a line.
const LINE: f64 = 22.0;
/// The longest bar that shows the scale.
const BAR: f64 = 100.0;

/// Where the next mark goes.
struct Place {
    x: f64,
    base: f64,
}

/// Draws the legend; how high it is.
pub fn draw(tick: f64, pen: &mut Pen, y: f64) -> f64 {
    pen.element(r#"<g class="legend">"#);
    pen.line("axis", (MARGIN, y), (PAGE - MARGIN, y));
    let mut place = Place {
        x: MARGIN,
        base: y + LINE,
    };
    for (code, meaning) in (0..).zip(MEANINGS) {
        place.mark(pen, 38.0, meaning, |pen, x, y| request_of(pen, x, y, code));
    }
    place.next_line();
    scale(tick, pen, &mut place);
    place.mark(pen, 6.0, "report sent, with its sequence", |pen, x, y| {
        pen.shape("sent", &[(x + 3.0, y - 8.0), (x + 6.0, y), (x, y)]);
    });
    place.mark(pen, 14.0, "result other than 0", result);
    place.mark(
        pen,
        14.0,
        "keepalives, west above and east below",
        |pen, x, y| {
            let (x, y) = (short(x), short(y - 4.0));
            pen.path("alive", &format!("M{x} {y}h14m-9 0v-4m4 4v4"));
        },
    );
    place.next_line();
    let words = "station: at hop 1 on ringlet 0 (west, dark upper edge) and at hop 3 on ringlet 1 (east, dark lower edge), from joining to leaving";
    place.mark(pen, 44.0, words, |pen, x, y| {
        bars::sample(pen, (x, x + 44.0), y - 10.0)
    });
    pen.element("</g>");
    place.base + LINE / 2.0 - y
}

impl Place {
    /// Draws a mark of some width, and what it means.
    fn mark(
        &mut self,
        pen: &mut Pen,
        wide: f64,
        words: &str,
        draw: impl FnOnce(&mut Pen, f64, f64),
    ) {
        draw(pen, self.x, self.base);
        let after = self.x + wide + 5.0;
        pen.words("row", Anchor::Start, (after, self.base), words);
        self.x = after + width(words, SIZE) + 14.0;
    }

    fn next_line(&mut self) {
        self.x = MARGIN;
        self.base += LINE;
    }
}

fn request_of(pen: &mut Pen, x: f64, y: f64, code: u8) {
    let area = Area {
        x,
        y: y - 13.0,
        width: 38.0,
        height: 17.0,
    };
    pen.area(&class(code), area);
    let class = format!("code{}", letters(code));
    pen.words(&class, Anchor::Middle, (x + 19.0, y), &request(code));
}

fn result(pen: &mut Pen, x: f64, y: f64) {
    let area = Area {
        x,
        y: y - 9.0,
        width: 14.0,
        height: 11.0,
    };
    pen.area("refused", area);
    pen.words("result", Anchor::Middle, (x + 7.0, y), "22");
}

/// A bar for a round number of ticks.
fn scale(tick: f64, pen: &mut Pen, place: &mut Place) {
    let steps = (0..12).flat_map(|power| [1, 2, 5].map(|digit| digit * 10_u64.pow(power)));
    let fitting = steps.take_while(|&ticks| ticks as f64 * tick <= BAR);
    let ticks = fitting.last().unwrap_or(1);
    let words = match ticks {
        1 => "1 tick, 1 ms (or wider, to be read)".to_string(),
        ticks => format!(
            "{} ticks, {} ms (short runs wider, to be read)",
            count(ticks),
            count(ticks)
        ),
    };
    let wide = ticks as f64 * tick;
    place.mark(pen, wide, &words, |pen, x, y| {
        let (left, right) = (short(x), short(x + wide));
        pen.path(
            "axis",
            &format!("M{left} {}v6m0 -3H{right}m0 -3v6", short(y - 7.0)),
        );
    });
}
