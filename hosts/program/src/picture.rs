//! The picture of a run, as SVG: where messages were lost, when they were asked for, and when each
//! gap closed.
//!
//! Records run to the right and message numbers upwards. Each record, and each number, has a share
//! of its axis, and its label stands at the middle of it. A record changes things at its middle, so
//! that steps, boxes and marks of one record stand above each other; a box covers the shares of its
//! numbers, from the first to the last.

mod axes;
mod plot;
#[cfg(test)]
mod tests;
mod words;

use crate::run::Run;
use axes::Axes;

const WIDTH: f64 = 1000.0;
const HEIGHT: f64 = 560.0;
/// Between the picture's edges and what is drawn.
const MARGIN: f64 = 20.0;
/// The edges of the plot; the left one depends on the labels of the message numbers.
const TOP: f64 = 108.0;
const BOTTOM: f64 = 388.0;
const RIGHT: f64 = 968.0;
/// The upper edge of the lanes below the plot, and the height of each.
const LANES: f64 = 398.0;
const LANE: f64 = 24.0;
const LANES_BOTTOM: f64 = LANES + 4.0 * LANE;

/// The colours are Okabe and Ito's, which differ for colour-blind eyes too; dashes, hatching and
/// shapes say the same in grey print.
const STYLE: &str = "<style>\
svg{font:12px Helvetica,Arial,sans-serif;fill:#222}\
.paper{fill:#fff}\
.grid{stroke:#e4e4e4}\
.frame{fill:none;stroke:#999}\
.behind{fill:#56b4e9;fill-opacity:.3}\
.told{fill:none;stroke:#222;stroke-dasharray:5 3}\
.next{fill:none;stroke:#0072b2;stroke-width:2.6;stroke-linejoin:round}\
.lost{fill:#d55e00}\
.asked{fill:#cc79a7}\
.closed{fill:none;stroke:#009e73;stroke-width:2.2}\
.refused{fill:none;stroke:#000;stroke-width:1.8}\
.gap.closed{fill:#e69f00;fill-opacity:.85;stroke:#7a4a00;stroke-width:1}\
.gap.open{fill:url(#hatching);stroke:#b84a00;stroke-width:1.4}\
.end{stroke:#000;stroke-width:1.4;stroke-dasharray:8 3 2 3}\
.note{font-style:italic}\
</style>
<defs><pattern id=\"hatching\" width=\"5\" height=\"5\" patternUnits=\"userSpaceOnUse\" \
patternTransform=\"rotate(45)\"><path fill=\"#d55e00\" d=\"M0 0h1.6v5h-1.6z\"/></pattern></defs>
";

/// What the picture shows, for those who can't see it.
const SHOWN: &str = "Message numbers over the records of the capture. A solid line is what was \
delivered, a dashed line what is known to exist, and each box a gap, from the record that showed \
it to the one that closed it. Lanes below mark the records at which messages were lost, asked \
for, complete again, or refused.";

/// A whole SVG document, which needs nothing else to be shown.
pub fn draw(run: &Run) -> String {
    let axes = Axes::of(run);
    let mut parts = vec![head(run), legend(), axes.draw()];
    if run.records == 0 {
        let middle = ((axes.left + RIGHT) / 2.0, (TOP + BOTTOM) / 2.0);
        parts.push(text(middle, "middle", "no records"));
    } else {
        parts.push(plot::staircases(run, &axes));
        parts.push(plot::end(run, &axes));
    }
    parts.push(plot::lanes(run, &axes));
    parts.push("</svg>\n".to_string());
    parts.concat()
}

fn head(run: &Run) -> String {
    let (headline, details) = (words::headline(run), words::details(run));
    let (large, small) = (size(&headline, 18.0), size(&details, 13.0));
    let (headline, details) = (words::escaped(&headline), words::escaped(&details));
    format!(
        "<svg xmlns=\"http://www.w3.org/2000/svg\" width=\"{WIDTH}\" height=\"{HEIGHT}\" \
         viewBox=\"0 0 {WIDTH} {HEIGHT}\" role=\"img\" aria-labelledby=\"what how\">\n\
         <title id=\"what\">{headline}</title>\n\
         <desc id=\"how\">{details}. {SHOWN}</desc>\n\
         {STYLE}\
         <rect class=\"paper\" width=\"{WIDTH}\" height=\"{HEIGHT}\"/>\n\
         <text x=\"{MARGIN}\" y=\"33\" font-size=\"{large}\" font-weight=\"bold\">\
         {headline}</text>\n\
         <text x=\"{MARGIN}\" y=\"55\" font-size=\"{small}\">{details}</text>\n"
    )
}

/// The size of a line's letters: the largest one, or what lets the line end inside the picture.
fn size(line: &str, largest: f64) -> String {
    // How wide a letter is at size 1, where a bold face is among the wide ones.
    let width = |letter| match letter {
        'a'..='z' | '0'..='9' | ' ' | ',' => 0.7,
        _ => 1.1,
    };
    place(largest.min((WIDTH - 2.0 * MARGIN) / line.chars().map(width).sum::<f64>()))
}

/// Its samples have one class more than what they stand for, so that they aren't counted with it.
fn legend() -> String {
    let (line, square) = ("m0 5.5h26", "h26v11h-26z");
    let samples = [
        ("next", line, "delivered up to here"),
        ("told", line, "known to exist"),
        ("behind", square, "behind"),
        ("gap closed", square, "gap, closed"),
        ("gap open", square, "gap, still open"),
    ];
    let (mut x, mut drawn) = (MARGIN, String::new());
    for (class, shape, name) in samples {
        drawn += &format!("<path class=\"key {class}\" d=\"M{} 70.5{shape}\"/>", place(x));
        drawn += &text((x + 33.0, 80.0), "start", name);
        x += 62.0 + 6.4 * name.len() as f64;
    }
    drawn
}

/// A short text of our own, which has nothing to escape.
fn text((x, y): (f64, f64), anchor: &str, text: &str) -> String {
    let (x, y) = (place(x), place(y));
    format!("<text x=\"{x}\" y=\"{y}\" text-anchor=\"{anchor}\">{text}</text>\n")
}

/// A coordinate: a tenth of a pixel is as fine as anyone sees.
fn place(pixels: f64) -> String {
    format!("{}", (pixels * 10.0).round() / 10.0)
}
