//! The rows as a picture in SVG: a panel for each call, order against milliseconds, both
//! logarithmic, with the same axes in every panel.

use crate::measure::{ratio, Row};
use crate::{ORDERS, REVERSION, ROUTES};
use std::fmt::Write;

const COLOURS: [&str; 5] = ["#0072b2", "#c04e00", "#007a5a", "#8a3fa0", "#7a5200"];
const WIDTH: f64 = 1120.0;
const HEIGHT: f64 = 785.0;
/// The plotting area of a panel, the distance from a panel to the next, and the first one's place.
const PANEL: (f64, f64) = (280.0, 240.0);
const STEP: (f64, f64) = (340.0, 355.0);
const FIRST: (f64, f64) = (90.0, 128.0);

/// How the times of one program are drawn: its name, the strokes of its line, and its mark.
struct Style {
    name: &'static str,
    dashes: &'static str,
    mark: fn(f64, f64, &str) -> String,
    time: fn(&Row) -> Option<f64>,
}

const STYLES: [Style; 3] = [
    Style { name: "library", dashes: "none", mark: disc, time: |row| Some(row.library) },
    Style { name: "straightforward code", dashes: "9 5", mark: square, time: |row| row.second },
    Style { name: "FLINT", dashes: "2 5", mark: triangle, time: |row| row.flint.ok() },
];

fn disc(x: f64, y: f64, colour: &str) -> String {
    format!("<circle cx='{x:.1}' cy='{y:.1}' r='4.5' fill='{colour}'/>\n")
}

fn square(x: f64, y: f64, colour: &str) -> String {
    let (x, y) = (x - 4.0, y - 4.0);
    format!("<rect x='{x:.1}' y='{y:.1}' width='8' height='8' fill='white' stroke='{colour}' stroke-width='2'/>\n")
}

fn triangle(x: f64, y: f64, colour: &str) -> String {
    let (left, right, top, foot) = (x - 5.0, x + 5.0, y - 5.5, y + 4.0);
    format!("<path d='M{left:.1} {foot:.1}H{right:.1}L{x:.1} {top:.1}Z' fill='white' stroke='{colour}' stroke-width='2'/>\n")
}

/// Text at a place; `look` holds further attributes.
fn text(x: f64, y: f64, look: &str, words: &str) -> String {
    format!("<text x='{x:.1}' y='{y:.1}' {look}>{words}</text>\n")
}

/// The powers of ten, first and last, between which all the times lie.
fn decades(rows: &[&Row]) -> (i32, i32) {
    let times = || rows.iter().flat_map(|row| STYLES.iter().filter_map(|style| (style.time)(row)));
    let least = times().fold(f64::INFINITY, f64::min).log10().floor() as i32;
    let most = times().fold(0.0, f64::max).log10().ceil() as i32;
    (least, most.max(least + 1))
}

/// The place of an order and of a time in the panel with this corner.
struct Axes {
    left: f64,
    top: f64,
    least: i32,
    most: i32,
}

impl Axes {
    fn x(&self, n: usize) -> f64 {
        let log = |n: usize| (n as f64).log2();
        let span = log(ORDERS[ORDERS.len() - 1]) - log(ORDERS[0]);
        self.left + 20.0 + (PANEL.0 - 40.0) * (log(n) - log(ORDERS[0])) / span
    }

    fn y(&self, time: f64) -> f64 {
        let span = f64::from(self.most - self.least);
        self.top + PANEL.1 * (f64::from(self.most) - time.log10()) / span
    }

    /// The frame with its lines, figures and the names of both axes.
    fn drawn(&self) -> String {
        let (right, foot) = (self.left + PANEL.0, self.top + PANEL.1);
        let mut drawn = String::new();
        for power in self.least..=self.most {
            let y = self.y(10f64.powi(power));
            let figure = if power < 0 {
                format!("{:.*}", power.unsigned_abs() as usize, 10f64.powi(power))
            } else {
                format!("{}", 10u64.pow(power.unsigned_abs()))
            };
            let _ = writeln!(drawn, "<path d='M{} {y:.1}H{right}' stroke='#d8d8d8'/>", self.left);
            drawn += &text(self.left - 8.0, y + 4.5, "text-anchor='end'", &figure);
        }
        for n in ORDERS {
            let x = self.x(n);
            let _ = writeln!(drawn, "<path d='M{x:.1} {}V{foot}' stroke='#e8e8e8'/>", self.top);
            drawn += &text(x, foot + 19.0, "text-anchor='middle'", &n.to_string());
        }
        let (x, y) = (self.left, self.top);
        let (width, height) = PANEL;
        let _ = writeln!(
            drawn,
            "<rect x='{x}' y='{y}' width='{width}' height='{height}' fill='none' stroke='#666'/>"
        );
        drawn += &text(x + width / 2.0, foot + 39.0, "text-anchor='middle'", "order n");
        drawn
    }
}

/// A call's lines and marks, with the ratios at its largest order under its name.
fn panel(axes: &Axes, call: &str, colour: &str, rows: &[&Row]) -> String {
    let mut drawn = axes.drawn();
    let rows: Vec<&Row> = rows.iter().filter(|row| row.call == call).copied().collect();
    for style in STYLES.iter().rev() {
        let points: Vec<(f64, f64)> = rows
            .iter()
            .filter_map(|row| Some((axes.x(row.n), axes.y((style.time)(row)?))))
            .collect();
        drawn += &line(&points, colour, style);
    }
    let look = format!("font-size='17' font-weight='bold' fill='{colour}'");
    drawn += &text(axes.left, axes.top - 46.0, &look, call);
    let others: [(fn(&Row) -> Option<f64>, &str, f64); 2] =
        [(Row::to_second, "straightforward", 27.0), (|row| row.to_flint().ok(), "FLINT", 10.0)];
    for (to, name, above) in others {
        if let Some(last) = rows.iter().rev().find(|row| to(row).is_some()) {
            let words = format!("{} × {name} at n = {}", ratio(to(last)), last.n);
            drawn += &text(axes.left, axes.top - above, "", &words);
        }
    }
    drawn
}

fn line(points: &[(f64, f64)], colour: &str, style: &Style) -> String {
    let list: Vec<String> = points.iter().map(|(x, y)| format!("{x:.1},{y:.1}")).collect();
    let mut drawn = format!(
        "<polyline points='{}' fill='none' stroke='{colour}' stroke-width='2.2' stroke-linecap='round' stroke-dasharray='{}'/>\n",
        list.join(" "),
        style.dashes,
    );
    for &(x, y) in points {
        drawn += &(style.mark)(x, y, colour);
    }
    drawn
}

/// What the lines mean, in the place of a sixth panel.
fn legend(left: f64, top: f64, with_flint: bool) -> String {
    let mut drawn = String::new();
    let styles = &STYLES[..if with_flint { 3 } else { 2 }];
    for (place, style) in styles.iter().enumerate() {
        let y = top + 16.0 + 32.0 * place as f64;
        drawn += &line(&[(left + 5.0, y), (left + 75.0, y)], "#333", style);
        drawn += &text(left + 92.0, y + 5.0, "font-size='15'", style.name);
    }
    let words = [
        "Both axes are logarithmic; lower is quicker.",
        "Under each name: the library's time as a",
        "multiple of the others' times; below 1 the",
        "library is quicker. What takes about a",
        "minute at n = 4096 is not drawn there.",
        "FLINT has one composition, which stands",
        "in the panel of each route.",
    ];
    let words = &words[..if with_flint { 7 } else { 5 }];
    for (place, words) in words.iter().enumerate() {
        drawn += &text(left, top + 134.0 + 21.0 * place as f64, "", words);
    }
    drawn
}

/// The whole picture, of the rows at this prime.
pub fn drawn(p: u64, rows: &[Row]) -> String {
    let calls: Vec<&str> = ROUTES.into_iter().chain([REVERSION]).collect();
    let rows: Vec<&Row> = rows.iter().filter(|row| calls.contains(&row.call)).collect();
    let (least, most) = decades(&rows);
    let corner = |place: usize| {
        let (column, line) = ((place % 3) as f64, (place / 3) as f64);
        (FIRST.0 + STEP.0 * column, FIRST.1 + STEP.1 * line)
    };
    let mut drawn = format!(
        "<svg xmlns='http://www.w3.org/2000/svg' viewBox='0 0 {WIDTH} {HEIGHT}' width='{WIDTH}' height='{HEIGHT}' \
         font-family='DejaVu Sans, Verdana, sans-serif' font-size='13' fill='#222'>\n\
         <rect width='{WIDTH}' height='{HEIGHT}' fill='white'/>\n"
    );
    let title = format!(
        "Milliseconds of a call: lists of n coefficients modulo {p}, shortest of several runs"
    );
    drawn += &text(30.0, 36.0, "font-size='19' font-weight='bold'", &title);
    for (place, call) in calls.iter().enumerate() {
        let (left, top) = corner(place);
        drawn += &panel(&Axes { left, top, least, most }, call, COLOURS[place], &rows);
    }
    for line in 0..2 {
        let (x, y) = (FIRST.0 - 62.0, corner(3 * line).1 + PANEL.1 / 2.0);
        let look = format!("text-anchor='middle' transform='rotate(-90 {x} {y})'");
        drawn += &text(x, y, &look, "milliseconds");
    }
    let (left, top) = corner(calls.len());
    drawn += &legend(left, top, rows.iter().any(|row| row.flint.is_ok()));
    drawn + "</svg>\n"
}
