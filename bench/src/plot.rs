//! A plot of growth, as SVG.
use std::fmt::Write;

/// One square of the plot. Both axes are logarithmic.
pub struct Panel {
    pub title: String,
    /// What the axes mean.
    pub x: &'static str,
    pub y: &'static str,
    pub lines: Vec<Line>,
}

pub struct Line {
    pub name: String,
    pub points: Vec<(f64, f64)>,
}

const WIDTH: f64 = 320.0;
const HEIGHT: f64 = 240.0;
/// Where a panel's frame stands in its place, and how large that place is.
const LEFT: f64 = 70.0;
const TOP: f64 = 34.0;
const WIDE: f64 = WIDTH + 100.0;
const HIGH: f64 = HEIGHT + 170.0;
const ABREAST: usize = 3;
const COLOURS: [&str; 5] = ["#c0392b", "#2c3e50", "#8e44ad", "#2980b9", "#27ae60"];

pub fn plot(panels: &[Panel]) -> String {
    let (wide, high) = (ABREAST as f64 * WIDE, panels.len().div_ceil(ABREAST) as f64 * HIGH);
    let mut out = format!(
        "<svg xmlns=\"http://www.w3.org/2000/svg\" viewBox=\"0 0 {wide} {high}\" font-family=\"sans-serif\" font-size=\"11\">\n<rect width=\"100%\" height=\"100%\" fill=\"white\"/>\n"
    );
    for (i, panel) in panels.iter().enumerate() {
        let (x, y) = ((i % ABREAST) as f64 * WIDE + LEFT, (i / ABREAST) as f64 * HIGH + TOP);
        writeln!(out, "<g transform=\"translate({x} {y})\">").expect("a string takes all");
        draw(&mut out, panel).expect("a string takes all");
        out += "</g>\n";
    }
    out + "</svg>\n"
}

/// An axis: its ends, and how long it is drawn.
struct Axis {
    ends: (f64, f64),
    length: f64,
}

impl Axis {
    fn new(values: impl Iterator<Item = f64>, length: f64) -> Self {
        let ends = values.fold((f64::MAX, f64::MIN), |(lo, hi), v| (lo.min(v), hi.max(v)));
        Axis { ends, length }
    }

    fn at(&self, value: f64) -> f64 {
        let (lo, hi) = self.ends;
        (value / lo).ln() / (hi / lo).ln().max(1e-9) * self.length
    }

    /// The powers of ten on it.
    fn tens(&self) -> impl Iterator<Item = f64> {
        let (lo, hi) = self.ends;
        (lo.log10().ceil() as i32..=hi.log10().floor() as i32).map(|power| 10f64.powi(power))
    }
}

fn draw(out: &mut String, panel: &Panel) -> std::fmt::Result {
    let points = || panel.lines.iter().flat_map(|l| l.points.iter().copied());
    let (x, y) = (Axis::new(points().map(|p| p.0), WIDTH), Axis::new(points().map(|p| p.1), HEIGHT));
    let mut xs: Vec<f64> = points().map(|p| p.0).collect();
    xs.sort_by(f64::total_cmp);
    xs.dedup();
    text(out, (0.0, -12.0), "start", &format!("<tspan font-weight=\"bold\">{}</tspan>", panel.title))?;
    for value in xs {
        let at = x.at(value);
        line(out, (at, 0.0), (at, HEIGHT), "#eee", 1)?;
        text(out, (at, HEIGHT + 15.0), "middle", &thousands(value))?;
    }
    for value in y.tens() {
        let at = HEIGHT - y.at(value);
        line(out, (0.0, at), (WIDTH, at), "#eee", 1)?;
        text(out, (-5.0, at + 4.0), "end", &thousands(value))?;
    }
    writeln!(out, "<rect width=\"{WIDTH}\" height=\"{HEIGHT}\" fill=\"none\" stroke=\"#aaa\"/>")?;
    text(out, (WIDTH / 2.0, HEIGHT + 32.0), "middle", panel.x)?;
    writeln!(out, "<g transform=\"translate(-48 {}) rotate(-90)\">", HEIGHT / 2.0)?;
    text(out, (0.0, 0.0), "middle", panel.y)?;
    writeln!(out, "</g>")?;
    for (i, (drawn, colour)) in panel.lines.iter().zip(COLOURS).enumerate() {
        let path: Vec<String> =
            drawn.points.iter().map(|p| format!("{:.1},{:.1}", x.at(p.0), HEIGHT - y.at(p.1))).collect();
        writeln!(
            out,
            "<polyline points=\"{}\" fill=\"none\" stroke=\"{colour}\" stroke-width=\"2\"/>",
            path.join(" ")
        )?;
        let at = HEIGHT + 52.0 + 15.0 * i as f64;
        line(out, (0.0, at), (20.0, at), colour, 3)?;
        text(out, (26.0, at + 4.0), "start", &drawn.name)?;
    }
    Ok(())
}

fn line(out: &mut String, from: (f64, f64), to: (f64, f64), colour: &str, width: u32) -> std::fmt::Result {
    let ((x1, y1), (x2, y2)) = (from, to);
    writeln!(
        out,
        "<line x1=\"{x1:.1}\" y1=\"{y1:.1}\" x2=\"{x2:.1}\" y2=\"{y2:.1}\" stroke=\"{colour}\" stroke-width=\"{width}\"/>"
    )
}

fn text(out: &mut String, (x, y): (f64, f64), anchor: &str, words: &str) -> std::fmt::Result {
    writeln!(out, "<text x=\"{x:.1}\" y=\"{y:.1}\" text-anchor=\"{anchor}\">{words}</text>")
}

/// A number with commas.
pub fn thousands(value: f64) -> String {
    if value < 1000.0 {
        return value.to_string();
    }
    format!("{},{:03}", thousands((value / 1000.0).floor()), value % 1000.0)
}
