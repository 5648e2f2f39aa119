//! Draws the ratios as SVG: a group for each call, in it a column for each
//! family, in that a dot for each size; the scale is logarithmic.

use crate::families::FAMILIES;
use crate::measure::Figure;
use crate::table::three;
use crate::timed::CALLS;
use crate::SIZES;
use std::fmt::Write;

const WIDTH: f64 = 1080.0;
const HEIGHT: f64 = 580.0;
const LEFT: f64 = 90.0;
const RIGHT: f64 = 900.0;
const TOP: f64 = 70.0;
const BOTTOM: f64 = 490.0;

/// One for each family; told apart also by those who see few colours.
const COLOURS: [&str; 9] =
    ["#000000", "#e69f00", "#56b4e9", "#009e73", "#0072b2", "#d55e00", "#cc79a7", "#8a8a8a", "#6a3d9a"];

/// One for each size.
const RADII: [f64; 3] = [2.5, 4.0, 5.5];

pub fn draw(figures: &[Figure], runs: usize) -> String {
    let (low, high) = range(figures);
    let y = |ratio: f64| BOTTOM - (ratio.ln() - low.ln()) / (high.ln() - low.ln()) * (BOTTOM - TOP);
    let group = (RIGHT - LEFT) / CALLS.len() as f64;
    let x = |call: usize, family: usize| {
        LEFT + group * (call as f64 + (family as f64 + 1.0) / (FAMILIES.len() as f64 + 1.0))
    };

    let mut svg = String::new();
    writeln!(
        svg,
        "<svg xmlns=\"http://www.w3.org/2000/svg\" width=\"{WIDTH}\" height=\"{HEIGHT}\" \
         viewBox=\"0 0 {WIDTH} {HEIGHT}\" font-family=\"sans-serif\" font-size=\"13\" fill=\"#222222\">"
    )
    .unwrap();
    writeln!(svg, "<rect width=\"{WIDTH}\" height=\"{HEIGHT}\" fill=\"#ffffff\"/>").unwrap();
    text(&mut svg, LEFT, 30.0, "start", 17, "Time of each call, ours over the model's");
    let under = format!("medians of {runs} samples; below 1 ours is quicker");
    text(&mut svg, LEFT, 50.0, "start", 13, &under);

    axes(&mut svg, low, high, &y, group);
    for (family, colour) in COLOURS.iter().enumerate() {
        for call in 0..CALLS.len() {
            let column = figures.iter().filter(|f| f.call == call && f.family == family);
            dots(&mut svg, column.map(|f| (f, x(call, family), y(f.ratio()))).collect(), colour);
        }
    }
    legend(&mut svg);
    svg += "</svg>\n";
    svg
}

/// A column: a dot for each size where its figure is, and a line through them.
fn dots(svg: &mut String, column: Vec<(&Figure, f64, f64)>, colour: &str) {
    let points: Vec<String> = column.iter().map(|(_, x, y)| format!("{x:.1},{y:.1}")).collect();
    writeln!(svg, "<polyline points=\"{}\" fill=\"none\" stroke=\"{colour}\"/>", points.join(" ")).unwrap();
    for (figure, x, y) in column {
        let size = SIZES.iter().position(|&zones| zones == figure.zones).unwrap();
        writeln!(
            svg,
            "<circle cx=\"{x:.1}\" cy=\"{y:.1}\" r=\"{}\" fill=\"{colour}\">\
             <title>{}, {}, {} zones: {}</title></circle>",
            RADII[size],
            CALLS[figure.call],
            FAMILIES[figure.family],
            figure.zones,
            three(figure.ratio()),
        )
        .unwrap();
    }
}

fn text(svg: &mut String, x: f64, y: f64, anchor: &str, size: usize, words: &str) {
    let place = format!("x=\"{x:.1}\" y=\"{y:.1}\" text-anchor=\"{anchor}\"");
    writeln!(svg, "<text {place} font-size=\"{size}\">{words}</text>").unwrap();
}

/// Ends of the scale: 1, 2 or 5 times a power of ten, around all ratios and 1.
fn range(figures: &[Figure]) -> (f64, f64) {
    let ratios = figures.iter().map(Figure::ratio);
    let lowest = ratios.clone().fold(0.9, f64::min);
    let highest = ratios.fold(1.1, f64::max);
    let marks = marks();
    let low = marks.iter().copied().filter(|&mark| mark <= lowest).fold(marks[0], f64::max);
    let high = marks.iter().copied().filter(|&mark| mark >= highest).fold(*marks.last().unwrap(), f64::min);
    (low, high)
}

fn marks() -> Vec<f64> {
    (-6..=6).flat_map(|power| [1.0, 2.0, 5.0].map(|digit| digit * 10f64.powi(power))).collect()
}

fn axes(svg: &mut String, low: f64, high: f64, y: &dyn Fn(f64) -> f64, group: f64) {
    for mark in marks().into_iter().filter(|&mark| mark >= low * 0.999 && mark <= high * 1.001) {
        let one = (mark - 1.0).abs() < 1e-9;
        let (colour, width) = if one { ("#222222", 1.5) } else { ("#dddddd", 1.0) };
        writeln!(
            svg,
            "<line x1=\"{LEFT}\" y1=\"{0:.1}\" x2=\"{RIGHT}\" y2=\"{0:.1}\" \
             stroke=\"{colour}\" stroke-width=\"{width}\"/>",
            y(mark)
        )
        .unwrap();
        text(svg, LEFT - 8.0, y(mark) + 4.0, "end", 13, &format!("{}", (mark * 1e6).round() / 1e6));
    }
    for call in 0..=CALLS.len() {
        let x = LEFT + group * call as f64;
        writeln!(svg, "<line x1=\"{x:.1}\" y1=\"{TOP}\" x2=\"{x:.1}\" y2=\"{BOTTOM}\" stroke=\"#999999\"/>").unwrap();
    }
    for (call, name) in CALLS.iter().enumerate() {
        text(svg, LEFT + group * (call as f64 + 0.5), BOTTOM + 22.0, "middle", 14, name);
    }
    let words = "call; in each the eight families from left to right, as in the list, and three sizes";
    text(svg, (LEFT + RIGHT) / 2.0, BOTTOM + 50.0, "middle", 13, words);
    let middle = (TOP + BOTTOM) / 2.0;
    writeln!(
        svg,
        "<text transform=\"translate(28 {middle}) rotate(-90)\" text-anchor=\"middle\">\
         ours / model (logarithmic scale)</text>"
    )
    .unwrap();
}

fn legend(svg: &mut String) {
    let left = RIGHT + 24.0;
    let mut y = TOP + 10.0;
    text(svg, left, y, "start", 14, "family");
    for (name, colour) in FAMILIES.iter().zip(COLOURS) {
        y += 22.0;
        writeln!(svg, "<circle cx=\"{:.1}\" cy=\"{y:.1}\" r=\"5\" fill=\"{colour}\"/>", left + 6.0).unwrap();
        text(svg, left + 20.0, y + 4.0, "start", 13, name);
    }
    y += 44.0;
    text(svg, left, y, "start", 14, "zones");
    for (zones, radius) in SIZES.iter().zip(RADII) {
        y += 22.0;
        writeln!(svg, "<circle cx=\"{:.1}\" cy=\"{y:.1}\" r=\"{radius}\" fill=\"#222222\"/>", left + 6.0).unwrap();
        text(svg, left + 20.0, y + 4.0, "start", 13, &zones.to_string());
    }
}
