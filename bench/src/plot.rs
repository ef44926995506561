//! The plot of a run: time for a body against its nodes, both axes logarithmic.
use crate::measure::Figure;
use crate::speed::thousands;
use crate::{Four, Ordinary};
use std::fmt::Write;

const WIDTH: f64 = 860.0;
const HEIGHT: f64 = 560.0;
const LEFT: f64 = 104.0;
const RIGHT: f64 = 214.0;
const TOP: f64 = 58.0;
const BOTTOM: f64 = 66.0;

struct Line {
    name: [&'static str; 2],
    colour: &'static str,
    dashes: &'static str,
    figure: fn(&Four) -> Option<Figure>,
}

const LINES: [Line; 4] = [
    Line {
        name: ["d: original,", "bytes to report"],
        colour: "#b3411d",
        dashes: "",
        figure: |four| four.original_report,
    },
    Line {
        name: ["c: original,", "typing alone"],
        colour: "#e08a5b",
        dashes: "7 4",
        figure: |four| four.original_types,
    },
    Line { name: ["b: proved,", "bytes to report"], colour: "#1a4f8b", dashes: "", figure: |four| Some(four.report) },
    Line {
        name: ["a: proved,", "bytes to tables"],
        colour: "#5b9bd5",
        dashes: "7 4",
        figure: |four| Some(four.tables),
    },
];

/// A logarithmic scale from a range of values to a range of places.
struct Scale {
    low: f64,
    high: f64,
    from: f64,
    to: f64,
}

impl Scale {
    fn at(&self, value: f64) -> f64 {
        let share = (value / self.low).ln() / (self.high / self.low).ln();
        self.from + share * (self.to - self.from)
    }
}

pub fn svg(ordinary: &[Ordinary]) -> String {
    let points: Vec<Vec<(f64, f64)>> = LINES
        .iter()
        .map(|line| {
            ordinary.iter().filter_map(|o| Some((o.nodes as f64, (line.figure)(&o.four)?.median / 1e3))).collect()
        })
        .collect();
    let times = || points.iter().flatten().map(|p| p.1);
    let low = 10_f64.powf(times().fold(f64::MAX, f64::min).log10().floor());
    let high = 10_f64.powf(times().fold(0.0, f64::max).log10().ceil());
    let (first, last) = (ordinary[0].nodes as f64, ordinary[ordinary.len() - 1].nodes as f64);
    let x = Scale { low: first / 1.25, high: last * 1.25, from: LEFT, to: WIDTH - RIGHT };
    let y = Scale { low, high, from: HEIGHT - BOTTOM, to: TOP };

    let mut out = format!(
        "<svg xmlns=\"http://www.w3.org/2000/svg\" width=\"{WIDTH}\" height=\"{HEIGHT}\" viewBox=\"0 0 {WIDTH} {HEIGHT}\" \
         font-family=\"Helvetica, Arial, sans-serif\" font-size=\"14\" fill=\"#222\">\n\
         <rect width=\"{WIDTH}\" height=\"{HEIGHT}\" fill=\"#ffffff\"/>\n"
    );
    text(&mut out, LEFT, 30.0, "start", "font-size=\"18\" font-weight=\"bold\"", "Time to check a body");
    grid(&mut out, &x, &y, ordinary);
    for (line, points) in LINES.iter().zip(&points) {
        draw(&mut out, line, points, &x, &y);
    }
    legend(&mut out, &points, &y);
    out.push_str("</svg>\n");
    out
}

fn text(out: &mut String, x: f64, y: f64, anchor: &str, more: &str, what: &str) {
    let _ = writeln!(out, "<text x=\"{x:.1}\" y=\"{y:.1}\" text-anchor=\"{anchor}\" {more}>{what}</text>");
}

fn stroke(out: &mut String, from: (f64, f64), to: (f64, f64), style: &str) {
    let _ = writeln!(
        out,
        "<line x1=\"{:.1}\" y1=\"{:.1}\" x2=\"{:.1}\" y2=\"{:.1}\" {style}/>",
        from.0, from.1, to.0, to.1
    );
}

fn grid(out: &mut String, x: &Scale, y: &Scale, ordinary: &[Ordinary]) {
    let (light, lighter) = ("stroke=\"#cccccc\"", "stroke=\"#ececec\"");
    let mut decade = y.low;
    while decade < y.high * 1.001 {
        let at = y.at(decade);
        stroke(out, (x.from, at), (x.to, at), light);
        text(out, x.from - 10.0, at + 5.0, "end", "", &label(decade));
        for step in 2..10 {
            let value = decade * f64::from(step);
            if value < y.high {
                stroke(out, (x.from, y.at(value)), (x.to, y.at(value)), lighter);
            }
        }
        decade *= 10.0;
    }
    for o in ordinary {
        let at = x.at(o.nodes as f64);
        stroke(out, (at, y.from), (at, y.to), light);
        text(out, at, y.from + 22.0, "middle", "", &thousands(o.nodes));
    }
    stroke(out, (x.from, y.from), (x.to, y.from), "stroke=\"#444444\"");
    stroke(out, (x.from, y.from), (x.from, y.to), "stroke=\"#444444\"");
    text(out, (x.from + x.to) / 2.0, HEIGHT - 18.0, "middle", "", "nodes of the body");
    let middle = (y.from + y.to) / 2.0;
    let turned = format!("transform=\"rotate(-90 24 {middle:.1})\"");
    text(out, 24.0, middle, "middle", &turned, "time for a body (median)");
}

/// Microseconds as a label.
fn label(value: f64) -> String {
    match value {
        v if v < 1.0 => format!("{:.0} ns", v * 1e3),
        v if v < 1e3 => format!("{v:.0} µs"),
        v => format!("{:.0} ms", v / 1e3),
    }
}

fn draw(out: &mut String, line: &Line, points: &[(f64, f64)], x: &Scale, y: &Scale) {
    let path: Vec<String> = points.iter().map(|p| format!("{:.1},{:.1}", x.at(p.0), y.at(p.1))).collect();
    let dashes = if line.dashes.is_empty() { String::new() } else { format!("stroke-dasharray=\"{}\"", line.dashes) };
    let _ = writeln!(
        out,
        "<polyline points=\"{}\" fill=\"none\" stroke=\"{}\" stroke-width=\"2.5\" {dashes}/>",
        path.join(" "),
        line.colour
    );
    for p in points {
        let (cx, cy) = (x.at(p.0), y.at(p.1));
        let _ = writeln!(
            out,
            "<circle cx=\"{cx:.1}\" cy=\"{cy:.1}\" r=\"4\" fill=\"{}\" stroke=\"#ffffff\" stroke-width=\"1\"/>",
            line.colour
        );
    }
}

/// Beside the last points, the highest first, kept apart.
fn legend(out: &mut String, points: &[Vec<(f64, f64)>], y: &Scale) {
    let mut order: Vec<usize> = (0..LINES.len()).filter(|at| !points[*at].is_empty()).collect();
    order.sort_by(|a, b| points[*b].last().unwrap().1.total_cmp(&points[*a].last().unwrap().1));
    let left = WIDTH - RIGHT + 18.0;
    let mut lowest = TOP;
    for at in order {
        let line = &LINES[at];
        let place = y.at(points[at].last().unwrap().1).max(lowest);
        lowest = place + 44.0;
        let dashes =
            if line.dashes.is_empty() { String::new() } else { format!("stroke-dasharray=\"{}\"", line.dashes) };
        let style = format!("stroke=\"{}\" stroke-width=\"2.5\" {dashes}", line.colour);
        stroke(out, (left, place), (left + 34.0, place), &style);
        let _ = writeln!(out, "<circle cx=\"{:.1}\" cy=\"{place:.1}\" r=\"4\" fill=\"{}\"/>", left + 17.0, line.colour);
        text(out, left + 44.0, place - 2.0, "start", "", line.name[0]);
        text(out, left + 44.0, place + 15.0, "start", "", line.name[1]);
    }
}
