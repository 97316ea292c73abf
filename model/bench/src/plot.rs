//! Plots as SVG text.

use std::fmt::Write;

use crate::markdown::grouped;

pub struct Line {
    pub name: String,
    pub colour: &'static str,
    pub dashed: bool,
    pub points: Vec<(f64, f64)>,
}

/// Lines over one pair of axes; the one upwards begins at 0.
pub struct Panel {
    pub title: String,
    pub across: String,
    pub up: String,
    /// Whether the axis across has powers of ten at equal distances.
    pub logarithmic: bool,
    pub lines: Vec<Line>,
}

/// Sizes in pixels: of the plot, of a panel, and of a panel's axes within it.
const WIDTH: f64 = 760.0;
const HEIGHT: f64 = 330.0;
const LEFT: f64 = 70.0;
const RIGHT: f64 = 560.0;
const TOP: f64 = 40.0;
const BOTTOM: f64 = 270.0;

/// The panels one below the other.
pub fn svg(panels: &[Panel]) -> String {
    let height = HEIGHT * panels.len() as f64;
    let mut out = String::new();
    let mut put = |line: String| writeln!(out, "{line}").expect("a string takes every write");
    put(format!(
        "<svg xmlns=\"http://www.w3.org/2000/svg\" viewBox=\"0 0 {WIDTH} {height}\" \
         width=\"{WIDTH}\" height=\"{height}\" font-family=\"sans-serif\" font-size=\"12\">"
    ));
    put(format!(
        "<rect width=\"{WIDTH}\" height=\"{height}\" fill=\"white\"/>"
    ));
    for (index, panel) in panels.iter().enumerate() {
        put(format!(
            "<g transform=\"translate(0 {})\">",
            HEIGHT * index as f64
        ));
        panel.elements().into_iter().for_each(&mut put);
        put("</g>".to_string());
    }
    put("</svg>".to_string());
    out
}

/// A step between marks of which at most six reach a number: 1, 2 or 5 times a power of ten.
fn step(most: f64) -> f64 {
    let power = 10f64.powf((most / 6.0).log10().floor());
    let steps = [1.0, 2.0, 5.0, 10.0].map(|times| times * power);
    steps
        .into_iter()
        .find(|step| most / step <= 6.0)
        .unwrap_or(most)
}

/// A mark's number, with as many decimals as its step has.
fn mark(number: f64, step: f64) -> String {
    if step < 1.0 {
        format!("{number:.1}")
    } else {
        grouped(number.round() as u64)
    }
}

fn text(x: f64, y: f64, anchor: &str, text: &str) -> String {
    format!("<text x=\"{x:.1}\" y=\"{y:.1}\" text-anchor=\"{anchor}\">{text}</text>")
}

fn rule(from: (f64, f64), to: (f64, f64), colour: &str) -> String {
    format!(
        "<line x1=\"{:.1}\" y1=\"{:.1}\" x2=\"{:.1}\" y2=\"{:.1}\" stroke=\"{colour}\"/>",
        from.0, from.1, to.0, to.1
    )
}

impl Panel {
    fn elements(&self) -> Vec<String> {
        let points = || self.lines.iter().flat_map(|line| &line.points);
        let most = points().fold(0.0, |most: f64, point| most.max(point.1));
        let up_step = step(most);
        let highest = (most / up_step).ceil() * up_step;
        let (first, last) = points().fold((f64::MAX, 0.0), |(first, last): (f64, f64), point| {
            (first.min(point.0), last.max(point.0))
        });
        let first = if self.logarithmic { first } else { 0.0 };
        let scale = |x: f64| if self.logarithmic { x.log10() } else { x };
        let x = |number: f64| {
            let share = (scale(number) - scale(first)) / (scale(last) - scale(first));
            LEFT + share * (RIGHT - LEFT)
        };
        let y = |number: f64| BOTTOM - number / highest * (BOTTOM - TOP);

        let mut all = vec![format!(
            "<text x=\"{LEFT}\" y=\"20\" font-size=\"14\" font-weight=\"bold\">{}</text>",
            self.title
        )];
        for index in 0..=(highest / up_step).round() as u32 {
            let number = f64::from(index) * up_step;
            let grey = if index == 0 { "black" } else { "#dddddd" };
            all.push(rule((LEFT, y(number)), (RIGHT, y(number)), grey));
            all.push(text(
                LEFT - 6.0,
                y(number) + 4.0,
                "end",
                &mark(number, up_step),
            ));
        }
        for (number, name) in self.marks_across(first, last) {
            all.push(rule(
                (x(number), BOTTOM),
                (x(number), BOTTOM + 5.0),
                "black",
            ));
            all.push(text(x(number), BOTTOM + 19.0, "middle", &name));
        }
        all.push(rule((LEFT, TOP), (LEFT, BOTTOM), "black"));
        let middle = (TOP + BOTTOM) / 2.0;
        all.push(text(
            (LEFT + RIGHT) / 2.0,
            BOTTOM + 38.0,
            "middle",
            &self.across,
        ));
        all.push(format!(
            "<text transform=\"translate(16 {middle}) rotate(-90)\" text-anchor=\"middle\">{}</text>",
            self.up
        ));
        for (index, line) in self.lines.iter().enumerate() {
            let dashes = if line.dashed {
                " stroke-dasharray=\"6 4\""
            } else {
                ""
            };
            let stroke = format!("stroke=\"{}\" stroke-width=\"2\"{dashes}", line.colour);
            let points: Vec<String> = line
                .points
                .iter()
                .map(|&(across, up)| format!("{:.1},{:.1}", x(across), y(up)))
                .collect();
            all.push(format!(
                "<polyline fill=\"none\" {stroke} points=\"{}\"/>",
                points.join(" ")
            ));
            for &(across, up) in &line.points {
                all.push(format!(
                    "<circle cx=\"{:.1}\" cy=\"{:.1}\" r=\"3\" fill=\"{}\"/>",
                    x(across),
                    y(up),
                    line.colour
                ));
            }
            // What each line is, beside the axes.
            let at = TOP + 10.0 + 20.0 * index as f64;
            all.push(format!(
                "<line x1=\"{}\" y1=\"{at}\" x2=\"{}\" y2=\"{at}\" {stroke}/>",
                RIGHT + 16.0,
                RIGHT + 46.0
            ));
            all.push(text(RIGHT + 54.0, at + 4.0, "start", &line.name));
        }
        all
    }

    /// The numbers marked on the axis across, with their texts.
    fn marks_across(&self, first: f64, last: f64) -> Vec<(f64, String)> {
        if self.logarithmic {
            let powers = (0..16).map(|power| 10f64.powi(power));
            let inside = powers.filter(|number| (first..=last).contains(number));
            return inside
                .map(|number| (number, grouped(number as u64)))
                .collect();
        }
        let step = step(last);
        (0..=(last / step) as u32)
            .map(|index| f64::from(index) * step)
            .map(|number| (number, mark(number, step)))
            .collect()
    }
}
