//! The plot: ratios as bars on a logarithmic scale, and the time of a union by the number of entries.
use crate::report::{Group, Row};
use std::fmt::Write;

const WIDTH: f64 = 1_180.0;
const HEIGHT: f64 = 900.0;
const COLOURS: [&str; 3] = ["#9ecae1", "#4292c6", "#08457e"];
const OURS: &str = "#08457e";
const RUST: &str = "#c0562b";
const GREY: &str = "#777777";

/// A frame with a logarithmic scale upward.
struct Frame {
    left: f64,
    top: f64,
    width: f64,
    height: f64,
    least: f64,
    most: f64,
}

impl Frame {
    fn y(&self, value: f64) -> f64 {
        let part = (value.max(self.least) / self.least).ln() / (self.most / self.least).ln();
        self.top + self.height * (1.0 - part)
    }
    fn bottom(&self) -> f64 {
        self.top + self.height
    }
    /// The lines of the powers of ten, with the numbers beside them.
    fn lines(&self, svg: &mut String, unit: &str) {
        let mut value = self.least;
        while value <= self.most * 1.001 {
            let (y, right) = (self.y(value), self.left + self.width);
            writeln!(svg, r##"<line x1="{}" y1="{y:.1}" x2="{right}" y2="{y:.1}" stroke="#dddddd"/>"##, self.left).unwrap();
            text(svg, self.left - 6.0, y + 4.0, "end", 11, GREY, &format!("{}{unit}", grouped(value)));
            value *= 10.0;
        }
    }
}

/// A power of ten, with a comma before the last three digits.
fn grouped(value: f64) -> String {
    let plain = if value < 1.0 { format!("{value:.1}") } else { format!("{value:.0}") };
    match plain.len() {
        4.. => format!("{},{}", &plain[..plain.len() - 3], &plain[plain.len() - 3..]),
        _ => plain,
    }
}

fn text(svg: &mut String, x: f64, y: f64, anchor: &str, size: u32, colour: &str, words: &str) {
    let words = words.replace('&', "&amp;").replace('<', "&lt;");
    writeln!(svg, r#"<text x="{x:.1}" y="{y:.1}" text-anchor="{anchor}" font-size="{size}" fill="{colour}">{words}</text>"#)
        .unwrap();
}

fn slanted(svg: &mut String, x: f64, y: f64, words: &str) {
    writeln!(
        svg,
        r##"<text x="{x:.1}" y="{y:.1}" text-anchor="end" font-size="11" fill="#222222" transform="rotate(-40 {x:.1} {y:.1})">{words}</text>"##
    )
    .unwrap();
}

/// Bars from 1× on, up or down, those of one name side by side, one for each size; a line across a bar is its aim.
fn bars(svg: &mut String, frame: &Frame, groups: &[(&str, Vec<&Row>)]) {
    frame.lines(svg, "×");
    let places: usize = groups.iter().map(|g| g.1.len() + 1).sum();
    let step = frame.width / places as f64;
    let mut x = frame.left + step / 2.0;
    for (name, rows) in groups {
        let middle = x + step * rows.len() as f64 / 2.0;
        for row in rows {
            let (even, y, colour) = (frame.y(1.0), frame.y(row.score()), colour(row.entries));
            let (y, wide, tall) = (y.min(even), step * 0.92, (y - even).abs());
            writeln!(svg, r#"<rect x="{x:.1}" y="{y:.1}" width="{wide:.1}" height="{tall:.1}" fill="{colour}"/>"#).unwrap();
            if let Some(aim) = row.aim {
                let y = frame.y(aim);
                writeln!(
                    svg,
                    r#"<line x1="{:.1}" y1="{y:.1}" x2="{:.1}" y2="{y:.1}" stroke="{RUST}" stroke-width="2"/>"#,
                    x - step * 0.06,
                    x + step * 0.98
                )
                .unwrap();
            }
            x += step;
        }
        slanted(svg, middle + 4.0, frame.bottom() + 14.0, name);
        x += step;
    }
}

fn colour(entries: usize) -> &'static str {
    match entries {
        5 => COLOURS[0],
        50 => COLOURS[1],
        250 => COLOURS[2],
        _ => GREY,
    }
}

fn legend(svg: &mut String, x: f64, y: f64, all: &[(&str, &str)]) {
    let mut x = x;
    for (colour, words) in all {
        writeln!(svg, r#"<rect x="{x:.1}" y="{:.1}" width="12" height="12" fill="{colour}"/>"#, y - 10.0).unwrap();
        text(svg, x + 17.0, y, "start", 12, "#222222", words);
        x += 30.0 + 6.6 * words.len() as f64;
    }
}

/// Rows of a group by the function that comes first in them, under their names.
fn named(rows: &[Row], group: Group) -> (Vec<(&str, Vec<&Row>)>, &'static str) {
    let mut all: Vec<(&str, Vec<&Row>)> = Vec::new();
    let through = rows.iter().find(|r| r.group == group).map_or("", |r| r.through);
    for row in rows.iter().filter(|r| r.group == group && r.through == through) {
        match all.iter_mut().find(|(name, _)| *name == row.name) {
            Some((_, these)) => these.push(row),
            None => all.push((&row.name, vec![row])),
        }
    }
    (all, through)
}

/// Both sides' times of a union, by the number of entries, both scales logarithmic.
fn growth(svg: &mut String, frame: &Frame, rows: &[&Row]) {
    frame.lines(svg, " ns");
    let (first, last) = (rows[0].entries as f64, rows[rows.len() - 1].entries as f64);
    let x = |n: usize| frame.left + 20.0 + (frame.width - 40.0) * (n as f64 / first).ln() / (last / first).ln();
    for row in rows {
        text(svg, x(row.entries), frame.bottom() + 18.0, "middle", 11, GREY, &row.entries.to_string());
    }
    let ours = rows.iter().map(|r| (r.entries, r.ours.least)).collect::<Vec<_>>();
    let rust = rows.iter().filter_map(|r| Some((r.entries, r.rust?.least))).collect::<Vec<_>>();
    for (colour, points) in [(OURS, ours), (RUST, rust)] {
        let path: Vec<String> = points.iter().map(|(n, t)| format!("{:.1},{:.1}", x(*n), frame.y(*t))).collect();
        writeln!(svg, r#"<polyline points="{}" fill="none" stroke="{colour}" stroke-width="2"/>"#, path.join(" ")).unwrap();
        for (n, t) in points {
            writeln!(svg, r#"<circle cx="{:.1}" cy="{:.1}" r="3.5" fill="{colour}"/>"#, x(n), frame.y(t)).unwrap();
        }
    }
}

pub fn svg(rows: &[Row]) -> String {
    let mut svg = String::new();
    writeln!(
        svg,
        r#"<svg xmlns="http://www.w3.org/2000/svg" viewBox="0 0 {WIDTH} {HEIGHT}" width="{WIDTH}" height="{HEIGHT}" font-family="sans-serif">"#
    )
    .unwrap();
    writeln!(svg, r#"<rect width="{WIDTH}" height="{HEIGHT}" fill="white"/>"#).unwrap();
    let (mut operators, through) = named(rows, Group::Numbers);
    operators.extend(named(rows, Group::Lists).0);
    text(&mut svg, 20.0, 28.0, "start", 16, "#222222", &format!("How many times as fast as the Rust: operators, by {through}"));
    let sizes = [(GREY, "numbers"), (COLOURS[0], "5 entries"), (COLOURS[1], "50"), (COLOURS[2], "250"), (RUST, "the aim")];
    legend(&mut svg, 620.0, 28.0, &sizes);
    let most = operators.iter().flat_map(|g| &g.1).map(|r| r.score()).fold(100.0, f64::max);
    let frame = Frame { left: 70.0, top: 50.0, width: WIDTH - 90.0, height: 350.0, least: 0.1, most: most * 1.1 };
    bars(&mut svg, &frame, &operators);

    let (growing, through) = named(rows, Group::Growth);
    text(&mut svg, 20.0, 528.0, "start", 16, "#222222", &format!("Union of n entries and n others, by {through}"));
    legend(&mut svg, 110.0, 572.0, &[(OURS, "this"), (RUST, "the Rust")]);
    let frame = Frame { left: 90.0, top: 545.0, width: 440.0, height: 290.0, least: 10.0, most: 100_000.0 };
    if let Some((_, rows)) = growing.first() {
        growth(&mut svg, &frame, rows);
    }
    text(&mut svg, 310.0, frame.bottom() + 38.0, "middle", 12, "#222222", "n");

    let (sheets, through) = named(rows, Group::Sheets);
    text(&mut svg, 600.0, 528.0, "start", 16, "#222222", &format!("Sheets, by {through}"));
    let frame = Frame { left: 660.0, top: 545.0, width: 500.0, height: 260.0, least: 0.1, most: 1_000.0 };
    bars(&mut svg, &frame, &sheets);
    svg + "</svg>\n"
}
