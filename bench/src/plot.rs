//! A plot of the growing costs, as an SVG of two panels.

use std::fmt::Write;

pub struct Line {
    pub label: String,
    pub colour: &'static str,
    pub dashed: bool,
    /// Where it is on the x axis, and the nanoseconds of a round.
    pub points: Vec<(f64, f64)>,
}

pub struct Panel {
    pub title: String,
    pub x_label: String,
    pub lines: Vec<Line>,
}

const WIDTH: f64 = 420.0;
const HEIGHT: f64 = 300.0;
const LEFT: f64 = 70.0;
const RIGHT: f64 = 20.0;
const TOP: f64 = 36.0;
const BOTTOM: f64 = 46.0;
const KEY_LINE: f64 = 16.0;

pub fn svg(panels: &[Panel]) -> String {
    let key = panels.iter().map(|panel| panel.lines.len()).max().unwrap_or(0) as f64 * KEY_LINE;
    let (width, height) = (WIDTH * panels.len() as f64, HEIGHT + key + 8.0);
    let mut out = format!(
        "<svg xmlns=\"http://www.w3.org/2000/svg\" width=\"{width}\" height=\"{height}\" \
         viewBox=\"0 0 {width} {height}\" font-family=\"sans-serif\" font-size=\"11\">\n\
         <rect width=\"{width}\" height=\"{height}\" fill=\"white\"/>\n"
    );
    for (place, panel) in panels.iter().enumerate() {
        let _ = writeln!(out, "<g transform=\"translate({},0)\">", WIDTH * place as f64);
        draw(&mut out, panel);
        out.push_str("</g>\n");
    }
    out.push_str("</svg>\n");
    out
}

fn draw(out: &mut String, panel: &Panel) {
    let all = || panel.lines.iter().flat_map(|line| &line.points);
    let most_x = all().map(|point| point.0).fold(1.0, f64::max);
    let step = round_step(all().map(|point| point.1).fold(1.0, f64::max) / 4.0);
    let most_y = step * (all().map(|point| point.1).fold(1.0, f64::max) / step).ceil();
    let x_of = |x: f64| LEFT + (WIDTH - LEFT - RIGHT) * x / most_x;
    let y_of = |y: f64| HEIGHT - BOTTOM - (HEIGHT - TOP - BOTTOM) * y / most_y;
    text(out, (LEFT, 18.0), "start", 13, &panel.title);
    text(out, (LEFT, 31.0), "start", 10, "ns a round");
    text(out, ((LEFT + WIDTH - RIGHT) / 2.0, HEIGHT - 10.0), "middle", 11, &panel.x_label);
    for tick in 0..=(most_y / step).round() as usize {
        let y = step * tick as f64;
        let _ = writeln!(
            out,
            "<line x1=\"{LEFT}\" x2=\"{:.1}\" y1=\"{1:.1}\" y2=\"{1:.1}\" stroke=\"#ddd\"/>",
            WIDTH - RIGHT,
            y_of(y)
        );
        text(out, (LEFT - 6.0, y_of(y) + 4.0), "end", 11, &format!("{y}"));
    }
    let mut ticks: Vec<f64> = all().map(|point| point.0).collect();
    ticks.sort_by(f64::total_cmp);
    ticks.dedup();
    for x in ticks {
        text(out, (x_of(x), HEIGHT - BOTTOM + 16.0), "middle", 11, &format!("{x}"));
    }
    for (place, line) in panel.lines.iter().enumerate() {
        let points: Vec<String> =
            line.points.iter().map(|&(x, y)| format!("{:.1},{:.1}", x_of(x), y_of(y))).collect();
        stroke(out, &points.join(" "), line);
        for &(x, y) in &line.points {
            let _ = writeln!(
                out,
                "<circle cx=\"{:.1}\" cy=\"{:.1}\" r=\"3\" fill=\"{}\"/>",
                x_of(x),
                y_of(y),
                line.colour
            );
        }
        let y = HEIGHT + KEY_LINE * place as f64;
        stroke(out, &format!("{LEFT},{y} {},{y}", LEFT + 28.0), line);
        text(out, (LEFT + 36.0, y + 4.0), "start", 11, &line.label);
    }
}

fn stroke(out: &mut String, points: &str, line: &Line) {
    let dashes = if line.dashed { " stroke-dasharray=\"5 4\"" } else { "" };
    let _ = writeln!(
        out,
        "<polyline points=\"{points}\" fill=\"none\" stroke=\"{}\" stroke-width=\"2\"{dashes}/>",
        line.colour
    );
}

fn text(out: &mut String, (x, y): (f64, f64), anchor: &str, size: u32, words: &str) {
    let _ = writeln!(
        out,
        "<text x=\"{x:.1}\" y=\"{y:.1}\" text-anchor=\"{anchor}\" font-size=\"{size}\">{words}</text>"
    );
}

/// The next of 1, 2, 5, 10, 20, 50 and so on.
fn round_step(least: f64) -> f64 {
    let unit = 10f64.powf(least.log10().floor());
    [1.0, 2.0, 5.0, 10.0].into_iter().map(|times| times * unit).find(|&step| step >= least).unwrap_or(least)
}
