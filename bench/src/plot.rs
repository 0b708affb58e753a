//! The plot: time against size, both by their logarithms, a panel for each call on the workloads and a line for each of these.
//! Calls on inputs of their own, as the cheapest set, stand in the table alone.

use crate::measure::{Case, Times};
use crate::workloads;
use std::fmt::Write;

const COLUMNS: usize = 4;
const PANEL: (f64, f64) = (300.0, 290.0);
/// Where in its panel a diagram stands, and how large it is.
const CORNER: (f64, f64) = (62.0, 34.0);
const DIAGRAM: (f64, f64) = (220.0, 206.0);
const LEGEND: f64 = 106.0;

const COLOURS: [&str; 14] = [
    "#0072b2", "#e69f00", "#d55e00", "#009e73", "#666666", "#1b7837", "#cc79a7", "#5e3c99", "#56b4e9", "#8c6d31",
    "#8b0000", "#a6d854", "#66a61e", "#2d4a00",
];

/// How the sides are drawn: the library, the baseline, the tuned heap.
#[derive(Clone, Copy)]
enum Side {
    Product,
    Baseline,
    Tuned,
}

/// A diagram's scales.
struct Scale {
    least_part: usize,
    /// Microseconds, powers of ten.
    low: f64,
    high: f64,
}

impl Scale {
    fn of(cases: &[&Case]) -> Scale {
        let of_case = |case: &&Case| {
            let Times { product, baseline, tuned } = case.medians();
            [product, baseline, tuned.unwrap_or(baseline)]
        };
        let times = || cases.iter().flat_map(of_case);
        Scale {
            least_part: cases.iter().map(|case| case.part).max().unwrap(),
            low: times().fold(f64::INFINITY, f64::min).log10().floor(),
            high: times().fold(0.0, f64::max).log10().ceil(),
        }
    }

    fn x(&self, part: usize) -> f64 {
        DIAGRAM.0 * (1.0 - (part as f64).log2() / (self.least_part as f64).log2())
    }

    fn y(&self, time: f64) -> f64 {
        DIAGRAM.1 * (self.high - time.log10()) / (self.high - self.low)
    }
}

fn time_label(power: i32) -> String {
    let (unit, power) = match power {
        ..3 => ("µs", power),
        3..6 => ("ms", power - 3),
        _ => ("s", power - 6),
    };
    format!("{} {unit}", 10f64.powi(power))
}

fn text(svg: &mut String, (x, y): (f64, f64), attributes: &str, text: &str) {
    writeln!(svg, "<text x=\"{x:.1}\" y=\"{y:.1}\" {attributes}>{text}</text>").unwrap();
}

fn line(svg: &mut String, points: &[(f64, f64)], attributes: &str) {
    if points.is_empty() {
        return;
    }
    let points: Vec<String> = points.iter().map(|(x, y)| format!("{x:.1},{y:.1}")).collect();
    writeln!(svg, "<polyline points=\"{}\" fill=\"none\" {attributes}/>", points.join(" ")).unwrap();
}

/// The line of a side, the library's with points.
fn curve(svg: &mut String, points: &[(f64, f64)], colour: &str, side: Side) {
    let form = match side {
        Side::Product => "stroke-width=\"2\"",
        Side::Baseline => "stroke-width=\"1.2\" stroke-dasharray=\"4 3\"",
        Side::Tuned => "stroke-width=\"1.2\" stroke-dasharray=\"1 3\"",
    };
    line(svg, points, &format!("stroke=\"{colour}\" {form}"));
    for (x, y) in points.iter().filter(|_| matches!(side, Side::Product)) {
        writeln!(svg, "<circle cx=\"{x:.1}\" cy=\"{y:.1}\" r=\"2.6\" fill=\"{colour}\"/>").unwrap();
    }
}

fn grid(svg: &mut String, scale: &Scale) {
    let (width, height) = DIAGRAM;
    for power in scale.low as i32..=scale.high as i32 {
        let y = scale.y(10f64.powi(power));
        line(svg, &[(0.0, y), (width, y)], "stroke=\"#cccccc\"");
        text(svg, (-6.0, y + 4.0), "text-anchor=\"end\"", &time_label(power));
        for digit in (2..10).filter(|_| power < scale.high as i32) {
            let y = scale.y(f64::from(digit) * 10f64.powi(power));
            line(svg, &[(0.0, y), (width, y)], "stroke=\"#f0f0f0\"");
        }
    }
    let mut part = 1;
    while part <= scale.least_part {
        let x = scale.x(part);
        line(svg, &[(x, 0.0), (x, height)], "stroke=\"#e2e2e2\"");
        let label = if part == 1 { "full".to_string() } else { format!("1/{part}") };
        text(svg, (x, height + 16.0), "text-anchor=\"middle\"", &label);
        part *= 2;
    }
    text(svg, (width / 2.0, height + 32.0), "text-anchor=\"middle\"", "size");
}

/// The calls that are measured on the workloads, in the order in which they come.
fn calls_on(workloads: &[&str], cases: &[Case]) -> Vec<&'static str> {
    let mut calls = Vec::new();
    for case in cases.iter().filter(|case| workloads.contains(&case.workload)) {
        if !calls.contains(&case.call) {
            calls.push(case.call);
        }
    }
    calls
}

pub fn draw(cases: &[Case]) -> String {
    let workloads = workloads::all(1).iter().map(|workload| workload.name).collect::<Vec<_>>();
    assert_eq!(workloads.len(), COLOURS.len(), "a colour for each workload");
    let calls = calls_on(&workloads, cases);
    let rows = calls.len().div_ceil(COLUMNS) as f64;
    let (width, height) = (PANEL.0 * COLUMNS as f64, PANEL.1 * rows + LEGEND);
    let mut svg = format!(
        "<svg xmlns=\"http://www.w3.org/2000/svg\" viewBox=\"0 0 {width} {height}\" width=\"{width}\" height=\"{height}\" \
         font-family=\"sans-serif\" font-size=\"12\" fill=\"#222222\">\n<rect width=\"{width}\" height=\"{height}\" fill=\"#ffffff\"/>\n"
    );
    for (number, &call) in calls.iter().enumerate() {
        let x = PANEL.0 * (number % COLUMNS) as f64 + CORNER.0;
        let y = PANEL.1 * (number / COLUMNS) as f64 + CORNER.1;
        let of_call: Vec<&Case> = cases.iter().filter(|case| case.call == call).collect();
        let scale = Scale::of(&of_call);
        writeln!(svg, "<g transform=\"translate({x} {y})\">").unwrap();
        text(&mut svg, (DIAGRAM.0 / 2.0, -12.0), "text-anchor=\"middle\" font-size=\"14\" font-weight=\"bold\"", call);
        grid(&mut svg, &scale);
        for (colour, &workload) in COLOURS.iter().zip(&workloads) {
            let of_line = || of_call.iter().filter(|case| case.workload == workload);
            let points = |time: fn(Times) -> Option<f64>| -> Vec<(f64, f64)> {
                let point = |case: &&Case| Some((scale.x(case.part), scale.y(time(case.medians())?)));
                of_line().filter_map(point).collect()
            };
            curve(&mut svg, &points(|times| times.tuned), colour, Side::Tuned);
            curve(&mut svg, &points(|times| Some(times.baseline)), colour, Side::Baseline);
            curve(&mut svg, &points(|times| Some(times.product)), colour, Side::Product);
        }
        svg.push_str("</g>\n");
    }
    legend(&mut svg, &workloads, width, PANEL.1 * rows + 18.0);
    svg.push_str("</svg>\n");
    svg
}

/// Six entries in a row: the workloads by their colours, then the sides.
fn legend(svg: &mut String, workloads: &[&str], width: f64, top: f64) {
    let coloured = workloads.iter().zip(COLOURS).map(|(&name, colour)| (name, colour, Side::Product));
    let sides = [("the library", Side::Product), ("the baseline", Side::Baseline), ("the tuned heap", Side::Tuned)];
    let sides = sides.map(|(name, side)| (name, "#222222", side));
    for (number, (name, colour, side)) in coloured.chain(sides).enumerate() {
        let x = CORNER.0 + (width - CORNER.0) / 6.0 * (number % 6) as f64;
        let y = top + 22.0 * (number / 6) as f64;
        curve(svg, &[(x, y - 4.0), (x + 30.0, y - 4.0)], colour, side);
        text(svg, (x + 38.0, y), "", name);
    }
    let note = "Medians of all turns. The size of a quote is the number of extracts.";
    text(svg, (CORNER.0, top + 72.0), "fill=\"#555555\"", note);
}
