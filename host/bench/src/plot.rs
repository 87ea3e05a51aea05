//! Plots as SVG text: lines over a pair of axes, and dots along one axis.

use std::fmt::Write;

const WIDTH: f64 = 420.0;
const HEIGHT: f64 = 300.0;
const MARGIN: f64 = 60.0;
const ROW: f64 = 20.0;
const LABELS: f64 = 270.0;
const COLOURS: [&str; 6] = ["#000000", "#e69f00", "#009e73", "#66c2a5", "#d55e00", "#cc79a7"];

/// The values between which an axis runs, and the pixels.
#[derive(Clone, Copy)]
struct Axis {
    is_log: bool,
    values: (f64, f64),
    pixels: (f64, f64),
}

impl Axis {
    /// From a power of ten to the greatest value, or from 0 to a round number.
    fn over(values: impl Iterator<Item = f64> + Clone, is_log: bool, pixels: (f64, f64)) -> Axis {
        let (least, most) = (values.clone().fold(f64::MAX, f64::min), values.fold(0.0, f64::max));
        let values = if is_log {
            (10f64.powf(least.log10().floor()), most)
        } else {
            let step = 10f64.powf(most.log10().floor()) / 2.0;
            (0.0, (most / step).ceil() * step)
        };
        Axis { is_log, values, pixels }
    }

    fn at(&self, value: f64) -> f64 {
        let scaled = |x: f64| if self.is_log { x.log10() } else { x };
        let (low, high) = (scaled(self.values.0), scaled(self.values.1));
        let part = (scaled(value) - low) / (high - low);
        self.pixels.0 + part * (self.pixels.1 - self.pixels.0)
    }

    fn ticks(&self) -> Vec<f64> {
        let (low, high) = self.values;
        if self.is_log {
            let powers = low.log10().round() as i32..=high.log10().floor() as i32;
            return powers.map(|power| 10f64.powi(power)).collect();
        }
        (0..=4).map(|quarter| high * f64::from(quarter) / 4.0).collect()
    }
}

/// `10000` is written as 10,000, and what is below 1 with as many digits as it needs.
pub fn number(value: f64) -> String {
    if value < 1.0 {
        return format!("{value}");
    }
    let digits = format!("{value:.0}");
    let mut text = String::new();
    for (i, digit) in digits.chars().enumerate() {
        if i > 0 && (digits.len() - i) % 3 == 0 {
            text.push(',');
        }
        text.push(digit);
    }
    text
}

fn text(svg: &mut String, (x, y): (f64, f64), anchor: &str, words: &str) {
    let words = words.replace('&', "&amp;").replace('<', "&lt;");
    let _ = writeln!(svg, "<text x='{x:.1}' y='{y:.1}' text-anchor='{anchor}'>{words}</text>");
}

fn line(svg: &mut String, (x, y): (f64, f64), (to_x, to_y): (f64, f64), colour: &str) {
    let _ = writeln!(
        svg,
        "<line x1='{x:.1}' y1='{y:.1}' x2='{to_x:.1}' y2='{to_y:.1}' stroke='{colour}'/>"
    );
}

fn dot(svg: &mut String, (x, y): (f64, f64), side: usize) {
    let _ = writeln!(svg, "<circle cx='{x:.1}' cy='{y:.1}' r='4' fill='{}'/>", COLOURS[side]);
}

/// A whole picture: what is in it, and below that the names of the sides with their colours, from the side of a number on.
fn picture(body: &str, (width, height): (f64, f64), sides: &[&str], from: usize) -> String {
    let mut svg = format!(
        "<svg xmlns='http://www.w3.org/2000/svg' width='{width}' height='{}' font-family='sans-serif' font-size='12'>\n\
         <rect width='100%' height='100%' fill='#ffffff'/>\n{body}",
        height + ROW
    );
    for (i, side) in sides.iter().enumerate() {
        let x = MARGIN + i as f64 * 120.0;
        dot(&mut svg, (x, height), i + from);
        text(&mut svg, (x + 10.0, height + 4.0), "start", side);
    }
    svg + "</svg>\n"
}

/// A panel: its title, and the points of each side.
pub struct Panel {
    pub title: String,
    pub sides: Vec<Vec<(f64, f64)>>,
}

/// Panels side by side, each with a line for each side. The axes are logarithmic, or begin at 0.
pub fn lines(
    panels: &[Panel],
    names: &[&str],
    (x_name, y_name): (&str, &str),
    is_log: bool,
) -> String {
    let mut body = String::new();
    for (i, panel) in panels.iter().enumerate() {
        let left = i as f64 * WIDTH;
        let points = panel.sides.iter().flatten();
        let across = (left + MARGIN, left + WIDTH - 20.0);
        let down = (HEIGHT - 50.0, 30.0);
        let x = Axis::over(points.clone().map(|point| point.0), is_log, across);
        let y = Axis::over(points.map(|point| point.1), is_log, down);
        for tick in x.ticks() {
            line(&mut body, (x.at(tick), down.0), (x.at(tick), down.1), "#dddddd");
            text(&mut body, (x.at(tick), down.0 + 15.0), "middle", &number(tick));
        }
        for tick in y.ticks() {
            line(&mut body, (across.0, y.at(tick)), (across.1, y.at(tick)), "#dddddd");
            text(&mut body, (across.0 - 4.0, y.at(tick) + 4.0), "end", &number(tick));
        }
        text(&mut body, (across.0, 15.0), "start", &format!("{} ({y_name})", panel.title));
        text(&mut body, (across.1, HEIGHT - 20.0), "end", x_name);
        for (side, points) in panel.sides.iter().enumerate() {
            let path: Vec<String> =
                points.iter().map(|(a, b)| format!("{:.1},{:.1}", x.at(*a), y.at(*b))).collect();
            let _ = writeln!(
                body,
                "<polyline fill='none' stroke-width='2' stroke='{}' points='{}'/>",
                COLOURS[side],
                path.join(" ")
            );
        }
    }
    picture(&body, (panels.len() as f64 * WIDTH, HEIGHT), names, 0)
}

/// A row for each case, with a dot at each ratio on a logarithmic axis. Colours begin with that of the second side.
pub fn dots(rows: &[(String, Vec<Option<f64>>)], names: &[&str], title: &str) -> String {
    let width = LABELS + 500.0;
    let bottom = 30.0 + ROW * rows.len() as f64;
    let ratios = rows.iter().flat_map(|row| row.1.iter().flatten().copied());
    let x = Axis::over(ratios.chain([1.0]), true, (LABELS, width - 30.0));
    let mut body = String::new();
    for tick in x.ticks() {
        let colour = if tick == 1.0 { "#000000" } else { "#dddddd" };
        line(&mut body, (x.at(tick), 20.0), (x.at(tick), bottom), colour);
        text(&mut body, (x.at(tick), bottom + 15.0), "middle", &number(tick));
    }
    text(&mut body, (LABELS, 14.0), "start", title);
    for (i, (name, ratios)) in rows.iter().enumerate() {
        let y = 35.0 + ROW * i as f64;
        text(&mut body, (LABELS - 10.0, y + 4.0), "end", name);
        for (side, ratio) in ratios.iter().enumerate() {
            if let Some(ratio) = ratio {
                dot(&mut body, (x.at(*ratio), y), side + 1);
            }
        }
    }
    picture(&body, (width, bottom + 2.0 * ROW), names, 1)
}
