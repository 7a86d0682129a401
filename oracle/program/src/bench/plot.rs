//! Draws how an admit's time grows with the rows, as an SVG: both axes logarithmic, a curve for each side.

use super::clock::RUNS;
use super::growth::Point;
use super::sides::Times;

const WIDTH: f64 = 640.0;
const HEIGHT: f64 = 400.0;
/// The edges of the field that the curves are drawn in.
const LEFT: f64 = 80.0;
const RIGHT: f64 = 610.0;
const TOP: f64 = 70.0;
const BOTTOM: f64 = 310.0;

const INK: &str = "#222";
const FAINT: &str = "#666";
const GRID: &str = "#d6dbdf";

/// A side's name, its colour and its time.
type Side = (&'static str, &'static str, fn(&Times) -> f64);

const SIDES: [Side; 2] = [
    ("the Rust", "#c0392b", |times| times.rust),
    ("the port", "#2471a3", |times| times.port),
];

/// The whole picture. Its ground is white, so that it reads alike in light and dark viewers.
pub fn svg(processor: &str, points: &[Point]) -> String {
    let rows = Axis {
        numbers: points.iter().map(|point| point.rows as f64).collect(),
        from: LEFT,
        to: RIGHT,
    };
    let times = Axis {
        numbers: steps_around(points),
        from: BOTTOM,
        to: TOP,
    };
    let mut parts = vec![
        format!(r#"<svg xmlns="http://www.w3.org/2000/svg" viewBox="0 0 {WIDTH} {HEIGHT}" font-family="sans-serif">"#),
        format!(r##"<rect width="{WIDTH}" height="{HEIGHT}" fill="#fff"/>"##),
    ];
    parts.extend(grid(&rows, &times));
    for (place, side) in SIDES.iter().enumerate() {
        parts.extend(curve(side, &rows, &times, points));
        parts.extend(legend(side, LEFT + 100.0 * place as f64));
    }
    parts.extend(words(processor));
    parts.push("</svg>\n".into());
    parts.join("\n")
}

/// A logarithmic axis: its marked numbers, ascending, and where the first and the last of them stand.
struct Axis {
    numbers: Vec<f64>,
    from: f64,
    to: f64,
}

impl Axis {
    fn place(&self, number: f64) -> f64 {
        let (low, high) = (self.numbers[0], self.numbers[self.numbers.len() - 1]);
        self.from + (self.to - self.from) * (number / low).ln() / (high / low).ln()
    }
}

/// The round numbers from just below the shortest time to just above the longest.
fn steps_around(points: &[Point]) -> Vec<f64> {
    let times = || {
        points
            .iter()
            .flat_map(|point| SIDES.map(|(_, _, time)| time(&point.times)))
    };
    let shortest = times().fold(f64::INFINITY, f64::min);
    let longest = times().fold(0.0, f64::max);
    let steps = (0..9).flat_map(|power| [1.0, 2.0, 5.0].map(|digit| digit * 10f64.powi(power)));
    let is_near = |step: &f64| *step * 2.5 > shortest && *step < longest * 2.5;
    steps.filter(is_near).collect()
}

/// A line and a number for each mark of both axes.
fn grid(rows: &Axis, times: &Axis) -> Vec<String> {
    let upright = rows.numbers.iter().flat_map(|number| {
        let x = rows.place(*number);
        [
            line((x, TOP), (x, BOTTOM), GRID, 1),
            text((x, BOTTOM + 18.0), 12, "middle", FAINT, &number.to_string()),
        ]
    });
    let level = times.numbers.iter().flat_map(|number| {
        let y = times.place(*number);
        [
            line((LEFT, y), (RIGHT, y), GRID, 1),
            text((LEFT - 8.0, y + 4.0), 12, "end", FAINT, &number.to_string()),
        ]
    });
    upright.chain(level).collect()
}

fn curve((_, colour, time): &Side, rows: &Axis, times: &Axis, points: &[Point]) -> Vec<String> {
    let place = |point: &Point| (rows.place(point.rows as f64), times.place(time(&point.times)));
    let places: Vec<(f64, f64)> = points.iter().map(place).collect();
    let path: Vec<String> = places.iter().map(|(x, y)| format!("{x:.1},{y:.1}")).collect();
    let path = path.join(" ");
    let dot = |(x, y): &(f64, f64)| format!(r#"<circle cx="{x:.1}" cy="{y:.1}" r="4" fill="{colour}"/>"#);
    let line = format!(r#"<polyline points="{path}" fill="none" stroke="{colour}" stroke-width="2"/>"#);
    std::iter::once(line).chain(places.iter().map(dot)).collect()
}

/// A side's colour and name, above the field.
fn legend((name, colour, _): &Side, x: f64) -> [String; 2] {
    let y = TOP - 16.0;
    [
        line((x, y), (x + 20.0, y), colour, 3),
        text((x + 26.0, y + 4.0), 13, "start", colour, name),
    ]
}

fn words(processor: &str) -> [String; 4] {
    let middle = (LEFT + RIGHT) / 2.0;
    let how = format!("median of {RUNS} runs, processor time; {processor}");
    [
        text((middle, 30.0), 18, "middle", INK, "What an admit takes, by rows"),
        text((LEFT - 8.0, TOP - 12.0), 12, "end", FAINT, "ns"),
        text(
            (middle, BOTTOM + 42.0),
            13,
            "middle",
            INK,
            "rows of the table, all of known peers",
        ),
        text((middle, HEIGHT - 16.0), 12, "middle", FAINT, &how),
    ]
}

fn line((x1, y1): (f64, f64), (x2, y2): (f64, f64), colour: &str, width: u32) -> String {
    format!(r#"<line x1="{x1:.1}" y1="{y1:.1}" x2="{x2:.1}" y2="{y2:.1}" stroke="{colour}" stroke-width="{width}"/>"#)
}

fn text((x, y): (f64, f64), size: u32, anchor: &str, colour: &str, words: &str) -> String {
    let words = words.replace('&', "&amp;").replace('<', "&lt;");
    format!(r#"<text x="{x:.1}" y="{y:.1}" font-size="{size}" text-anchor="{anchor}" fill="{colour}">{words}</text>"#)
}

#[cfg(test)]
mod tests {
    use super::*;

    fn drawn(times: &[(f64, f64)]) -> String {
        let point = |(rows, (rust, port)): (usize, &(f64, f64))| Point {
            rows,
            times: Times {
                rust: *rust,
                port: *port,
            },
        };
        let points: Vec<Point> = [1, 16, 1_024].into_iter().zip(times).map(point).collect();
        svg("a <quick> & small one", &points)
    }

    /// The places of a curve's points.
    fn places(polyline: &str) -> Vec<(f64, f64)> {
        let path = polyline.split('"').nth(1).expect("points");
        let place = |text: &str| {
            text.split_once(',')
                .map(|(x, y)| (x.parse().unwrap(), y.parse().unwrap()))
        };
        path.split(' ').filter_map(place).collect()
    }

    #[test]
    fn curves_stay_within_the_field() {
        for times in [
            [(1.0, 1.0); 3],
            [(199.9, 50.1), (250.0, 60.0), (450.0, 5_000.0)],
            [(2.0, 9e6); 3],
        ] {
            let picture = drawn(&times);
            let curves: Vec<_> = picture
                .lines()
                .filter(|line| line.starts_with("<polyline"))
                .map(places)
                .collect();
            assert_eq!(curves.iter().map(Vec::len).collect::<Vec<_>>(), [3, 3]);
            let is_within = |(x, y): &(f64, f64)| (LEFT..=RIGHT).contains(x) && (TOP..=BOTTOM).contains(y);
            assert!(curves.iter().flatten().all(is_within), "{curves:?}");
        }
    }

    #[test]
    fn a_name_is_no_markup() {
        assert!(drawn(&[(1.0, 2.0); 3]).contains("a &lt;quick> &amp; small one"));
    }
}
