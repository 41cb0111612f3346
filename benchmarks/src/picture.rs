//! The picture: two charts of times, one beside the other, as SVG. Both axes are logarithmic, so
//! that a straight line of slope 1 is a time that grows with the number of things.

use crate::run::Line;
use std::fmt::Write;

/// A chart: the name that its lines have, its title, and the words below its axis.
struct Chart {
    name: &'static str,
    title: &'static str,
    below: &'static str,
    left: f64,
}

const CHARTS: [Chart; 2] = [
    Chart {
        name: "records",
        title: "A pile: verdicts, report check and cutter",
        below: "records of 2,000 bytes a packet, 32 siblings",
        left: 60.0,
    },
    Chart {
        name: "batches",
        title: "A server's batch: tree, paths and responses",
        below: "requests in the batch",
        left: 530.0,
    },
];

const WIDTH: f64 = 360.0;
const HEIGHT: f64 = 240.0;
const TOP: f64 = 50.0;

/// How the picture begins, and its ground, without which it is read only on a page of its own scheme.
const START: &str =
    "<svg xmlns='http://www.w3.org/2000/svg' width='930' height='410' viewBox='0 0 930 410'>\n";
const GROUND: &str = "<rect class='paper' width='930' height='410'/>\n";

/// Colours for a light ground and for a dark one.
const STYLE: &str = "<style>
.paper { fill: #ffffff }
text { font: 12px sans-serif; fill: #24292f }
.title { font-weight: bold; font-size: 13px }
.grid { stroke: #d0d7de; stroke-width: 1 }
.ours { stroke: #0969da; fill: #0969da }
.other { stroke: #bc4c00; fill: #bc4c00 }
.line { fill: none; stroke-width: 2 }
.dashed { stroke-dasharray: 6 4 }
@media (prefers-color-scheme: dark) {
.paper { fill: #0d1117 }
text { fill: #e6edf3 }
.grid { stroke: #3d444d }
.ours { stroke: #58a6ff; fill: #58a6ff }
.other { stroke: #f0883e; fill: #f0883e }
.line { fill: none }
}
</style>";

/// The powers of ten around some numbers.
fn decades(values: impl Iterator<Item = f64>) -> (f64, f64) {
    let (low, high) = values.fold((f64::MAX, f64::MIN), |(low, high), value| {
        (low.min(value.log10()), high.max(value.log10()))
    });
    (low.floor(), high.ceil())
}

/// Where the points of a chart stand.
struct Scale {
    left: f64,
    most: f64,
    low: f64,
    high: f64,
}

impl Scale {
    fn of(chart: &Chart, lines: &[&Line]) -> Self {
        let points = || lines.iter().flat_map(|line| &line.points);
        let most = points().map(|(x, _)| x.log2()).fold(1.0, f64::max);
        let (low, high) = decades(points().map(|(_, y)| *y));
        Scale { left: chart.left, most, low, high: high.max(low + 1.0) }
    }

    fn x(&self, x: f64) -> f64 {
        self.left + WIDTH * x.log2() / self.most
    }

    fn y(&self, y: f64) -> f64 {
        TOP + HEIGHT * (self.high - y.log10()) / (self.high - self.low)
    }

    /// The lines of the grid and the numbers beside them.
    fn grid(&self, svg: &mut String) {
        let (left, right, bottom) = (self.left, self.left + WIDTH, TOP + HEIGHT);
        let mut decade = self.low;
        while decade <= self.high {
            let (y, words) = (self.y(10f64.powf(decade)), duration(decade));
            let _ = writeln!(svg, "<path class='grid' d='M{left:.1} {y:.1}H{right:.1}'/>");
            let (x, y) = (left - 6.0, y + 4.0);
            let _ = writeln!(svg, "<text x='{x:.1}' y='{y:.1}' text-anchor='end'>{words}</text>");
            decade += 1.0;
        }
        let step = if self.most > 6.0 { 2.0 } else { 1.0 };
        let mut power = 0.0;
        while power <= self.most {
            let (x, words) = (self.x(2f64.powf(power)), 2f64.powf(power));
            let _ = writeln!(svg, "<path class='grid' d='M{x:.1} {TOP:.1}V{bottom:.1}'/>");
            let y = bottom + 16.0;
            let _ =
                writeln!(svg, "<text x='{x:.1}' y='{y:.1}' text-anchor='middle'>{words}</text>");
            power += step;
        }
    }

    fn line(&self, svg: &mut String, line: &Line) {
        let class = class(line);
        let points: Vec<String> = line
            .points
            .iter()
            .map(|(x, y)| format!("{:.1},{:.1}", self.x(*x), self.y(*y)))
            .collect();
        let _ = writeln!(svg, "<polyline class='line {class}' points='{}'/>", points.join(" "));
    }
}

/// A power of ten of a second in words.
fn duration(decade: f64) -> String {
    let (unit, zeros) = match decade as i32 {
        ..=-7 => ("ns", decade + 9.0),
        -6..=-4 => ("µs", decade + 6.0),
        -3..=-1 => ("ms", decade + 3.0),
        _ => ("s", decade),
    };
    format!("{} {unit}", 10f64.powf(zeros).round())
}

fn class(line: &Line) -> String {
    let whose = if line.name.starts_with("ours") { "ours" } else { "other" };
    let dashed = if line.name.ends_with("lent") { " dashed" } else { "" };
    format!("{whose}{dashed}")
}

/// The names of the lines, below the chart.
fn legend(svg: &mut String, chart: &Chart, lines: &[&Line]) {
    for (place, line) in lines.iter().enumerate() {
        let (x, y) = (chart.left + 28.0, TOP + HEIGHT + 58.0 + 17.0 * place as f64);
        let (from, at, class) = (chart.left, y - 4.0, class(line));
        let _ = writeln!(svg, "<path class='line {class}' d='M{from:.1} {at:.1}h22'/>");
        let _ = writeln!(svg, "<text x='{x:.1}' y='{y:.1}'>{}</text>", line.name);
    }
}

fn chart(svg: &mut String, chart: &Chart, lines: &[&Line]) {
    let scale = Scale::of(chart, lines);
    scale.grid(svg);
    lines.iter().for_each(|line| scale.line(svg, line));
    legend(svg, chart, lines);
    let (left, middle) = (chart.left, chart.left + WIDTH / 2.0);
    let (title, below, y) = (chart.title, chart.below, TOP + HEIGHT + 36.0);
    let _ = writeln!(svg, "<text class='title' x='{left:.1}' y='28'>{title}</text>");
    let _ = writeln!(svg, "<text x='{middle:.1}' y='{y:.1}' text-anchor='middle'>{below}</text>");
}

/// The picture of these lines.
pub fn svg(lines: &[Line]) -> String {
    let mut svg = format!("{START}{STYLE}\n{GROUND}");
    for of in &CHARTS {
        let lines: Vec<&Line> = lines.iter().filter(|line| line.chart == of.name).collect();
        chart(&mut svg, of, &lines);
    }
    svg + "</svg>\n"
}
