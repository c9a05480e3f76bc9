//! Plots as SVG: panels side by side, both axes by powers, a line with marks for each series.

use crate::table::thousands;
use std::fmt::{Result, Write};

/// Points by x and y, both above 0.
pub struct Series {
    pub name: &'static str,
    pub points: Vec<(f64, f64)>,
}

pub struct Panel {
    pub title: &'static str,
    pub x: &'static str,
    pub y: &'static str,
    pub series: Vec<Series>,
}

const WIDTH: f64 = 400.0;
const HEIGHT: f64 = 380.0;
const COLOURS: [&str; 3] = ["#1b6ca8", "#c8553d", "#3a7d44"];
const STYLE: &str = "text{font:13px sans-serif}.title{font-weight:bold}.grid{stroke:#ddd;fill:none}";

/// One axis: its ticks, ascending, around all values, and where the first and the last stand on the page.
struct Axis {
    ticks: Vec<f64>,
    from: f64,
    to: f64,
}

impl Axis {
    /// Of all ticks there may be, those from the last one below the values to the first one above them.
    fn new(all: impl Iterator<Item = f64>, values: impl Iterator<Item = f64> + Clone, from: f64, to: f64) -> Axis {
        let low = values.clone().fold(f64::MAX, f64::min);
        let high = values.fold(f64::MIN, f64::max);
        let mut ticks: Vec<f64> = all.collect();
        let first = ticks.iter().rposition(|&tick| tick <= low).unwrap_or(0);
        let last = ticks.iter().position(|&tick| tick >= high).unwrap_or(ticks.len() - 1);
        ticks = ticks[first..=last.max(first + 1)].to_vec();
        Axis { ticks, from, to }
    }

    fn at(&self, value: f64) -> f64 {
        let (low, high) = (self.ticks[0], self.ticks[self.ticks.len() - 1]);
        self.from + (value / low).ln() / (high / low).ln() * (self.to - self.from)
    }
}

/// 1, 2, 4 and so on.
fn twos() -> impl Iterator<Item = f64> {
    (0..24).map(|power| f64::from(1 << power))
}

/// 0.01, 0.02, 0.05, 0.1 and so on.
fn ones_twos_fives() -> impl Iterator<Item = f64> {
    (-2..9).flat_map(|power| [1.0, 2.0, 5.0].map(|first| first * 10f64.powi(power)))
}

fn number(value: f64) -> String {
    if value >= 1.0 { thousands(value.round() as u64) } else { format!("{value}") }
}

fn text(out: &mut String, x: f64, y: f64, what: &str, more: &str) -> Result {
    writeln!(out, r#"<text x="{x:.1}" y="{y:.1}" {more}>{what}</text>"#)
}

fn grid(out: &mut String, x: &Axis, y: &Axis) -> Result {
    for &tick in &x.ticks {
        let at = x.at(tick);
        writeln!(out, r#"<path d="M{at:.1} {:.1}V{:.1}" class="grid"/>"#, y.from, y.to)?;
        text(out, at, y.from + 18.0, &number(tick), r#"text-anchor="middle""#)?;
    }
    for &tick in &y.ticks {
        let at = y.at(tick);
        writeln!(out, r#"<path d="M{:.1} {at:.1}H{:.1}" class="grid"/>"#, x.from, x.to)?;
        text(out, x.from - 6.0, at + 4.0, &number(tick), r#"text-anchor="end""#)?;
    }
    Ok(())
}

fn mark(out: &mut String, x: f64, y: f64, colour: &str) -> Result {
    writeln!(out, r#"<circle cx="{x:.1}" cy="{y:.1}" r="3.5" fill="{colour}"/>"#)
}

/// A line with its marks, and its name at this height.
fn line(out: &mut String, series: &Series, x: &Axis, y: &Axis, colour: &str, legend: f64) -> Result {
    let points: Vec<(f64, f64)> = series.points.iter().map(|&(a, b)| (x.at(a), y.at(b))).collect();
    let joined: Vec<String> = points.iter().map(|(a, b)| format!("{a:.1},{b:.1}")).collect();
    writeln!(out, r#"<polyline points="{}" fill="none" stroke="{colour}" stroke-width="2"/>"#, joined.join(" "))?;
    points.iter().try_for_each(|&(a, b)| mark(out, a, b, colour))?;
    mark(out, x.from + 10.0, legend - 4.0, colour)?;
    text(out, x.from + 20.0, legend, series.name, &format!(r#"fill="{colour}""#))
}

fn panel(out: &mut String, panel: &Panel, left: f64) -> Result {
    let points = || panel.series.iter().flat_map(|series| series.points.iter());
    let x = Axis::new(twos(), points().map(|point| point.0), left + 60.0, left + WIDTH - 20.0);
    let y = Axis::new(ones_twos_fives(), points().map(|point| point.1), HEIGHT - 80.0, 70.0);
    text(out, left + 60.0, 28.0, panel.title, r#"class="title""#)?;
    text(out, left + 14.0, 54.0, panel.y, "")?;
    text(out, (x.from + x.to) / 2.0, HEIGHT - 44.0, panel.x, r#"text-anchor="middle""#)?;
    grid(out, &x, &y)?;
    for (i, (series, colour)) in panel.series.iter().zip(COLOURS).enumerate() {
        line(out, series, &x, &y, colour, 88.0 + 18.0 * i as f64)?;
    }
    Ok(())
}

fn write(out: &mut String, caption: &str, panels: &[Panel]) -> Result {
    let width = WIDTH * panels.len() as f64;
    let size = format!(r#"width="{width}" height="{HEIGHT}" viewBox="0 0 {width} {HEIGHT}""#);
    writeln!(out, r#"<svg xmlns="http://www.w3.org/2000/svg" {size}>"#)?;
    writeln!(out, "<style>{STYLE}</style>\n<rect width=\"100%\" height=\"100%\" fill=\"white\"/>")?;
    for (i, one) in panels.iter().enumerate() {
        panel(out, one, WIDTH * i as f64)?;
    }
    text(out, 60.0, HEIGHT - 14.0, caption, "")?;
    writeln!(out, "</svg>")
}

pub fn svg(caption: &str, panels: &[Panel]) -> String {
    let mut out = String::new();
    write(&mut out, caption, panels).expect("a string takes everything");
    out
}
