//! The measurements as a table to print, as docs/speed.csv, and between the two marks of docs/SPEED.md.
use crate::{plot, timing::Times};
use std::{fmt, fmt::Write, fs, io};

#[derive(Clone, Copy, PartialEq)]
pub enum Group {
    Numbers,
    Conversion,
    Lists,
    Sheets,
    Alone,
    Checks,
    Growth,
}

/// A group's heading, and what its first column has where there is no Rust beside it.
const GROUPS: [(Group, &str, &str); 7] = [
    (Group::Numbers, "Numbers", "ratio"),
    (Group::Conversion, "Int to Float alone", "ratio"),
    (Group::Lists, "Lists", "ratio"),
    (Group::Sheets, "Sheets", "ratio"),
    (Group::Growth, "Growth", "ratio"),
    (Group::Alone, "Without a counterpart", "M/s"),
    (Group::Checks, "Pack check", "MB/s"),
];

pub struct Row {
    pub group: Group,
    /// the function of the archive
    pub through: &'static str,
    pub name: String,
    /// how many entries the lists have; 0 where there are none
    pub entries: usize,
    /// the pack's, where it is checked
    pub bytes: usize,
    pub ours: Times,
    pub rust: Option<Times>,
    pub aim: Option<f64>,
}

impl Row {
    /// How many times as fast as the original; without one, megabytes or millions of calls in a second.
    pub fn score(&self) -> f64 {
        match self.rust {
            Some(rust) => rust.least / self.ours.least,
            None => self.bytes.max(1) as f64 * 1e3 / self.ours.least,
        }
    }
    /// The greater of the two sides' noises, in percent.
    pub fn noise(&self) -> f64 {
        100.0 * self.rust.iter().fold(self.ours.noise(), |n, rust| n.max(rust.noise()))
    }
    pub fn met(&self) -> Option<bool> {
        self.aim.map(|aim| self.score() >= aim)
    }
    fn title(&self) -> String {
        title(&self.name, self.entries)
    }
    /// The fields of a line, ratio first.
    fn fields(&self) -> [String; 7] {
        let score = self.score();
        [
            if score < 0.995 { format!("{score:.2}") } else { short(score, 99.95) },
            short(self.ours.least, 999.95),
            self.rust.map_or("-".to_string(), |t| short(t.least, 999.95)),
            format!("{:.0} %", self.noise()),
            self.title(),
            self.aim.map_or(String::new(), |aim| aim.to_string()),
            self.met().map_or("", |met| if met { "yes" } else { "no" }).to_string(),
        ]
    }
}

pub fn title(name: &str, entries: usize) -> String {
    if entries == 0 { name.to_string() } else { format!("{name} {entries}") }
}

/// With one decimal below a bound.
fn short(x: f64, bound: f64) -> String {
    if x < bound { format!("{x:.1}") } else { format!("{x:.0}") }
}

impl fmt::Display for Row {
    fn fmt(&self, f: &mut fmt::Formatter<'_>) -> fmt::Result {
        let [score, ours, rust, noise, title, aim, met] = self.fields();
        let line = format!("{score:>7} {ours:>10} {rust:>10} {noise:>7}  {title:30} {aim:>4} {met:3}");
        write!(f, "{}", line.trim_end())
    }
}

/// A table's heading, the name of its first column, and its rows.
fn tables(rows: &[Row]) -> Vec<(String, &'static str, Vec<&Row>)> {
    let mut all = Vec::new();
    for (group, name, first) in GROUPS {
        let mut functions: Vec<&str> = rows.iter().filter(|r| r.group == group).map(|r| r.through).collect();
        functions.sort();
        functions.dedup();
        for through in functions {
            let these: Vec<&Row> = rows.iter().filter(|r| r.group == group && r.through == through).collect();
            all.push((format!("{name}, by {through}"), first, these));
        }
    }
    all
}

/// How many aims are met, and the rows that miss theirs.
fn aims(rows: &[Row]) -> (usize, usize, Vec<&Row>) {
    let missed: Vec<&Row> = rows.iter().filter(|r| r.met() == Some(false)).collect();
    let all = rows.iter().filter(|r| r.aim.is_some()).count();
    (all - missed.len(), all, missed)
}

pub fn table(rows: &[Row]) -> String {
    let mut text = String::new();
    for (heading, first, rows) in tables(rows) {
        let heads = format!("{first:>7} {:>10} {:>10} {:>7}  {:30} {:>4} met", "ours ns", "rust ns", "noise", "name", "aim");
        writeln!(text, "{heading}\n{heads}").unwrap();
        rows.iter().for_each(|r| writeln!(text, "{r}").unwrap());
        text.push('\n');
    }
    let (met, all, _) = aims(rows);
    writeln!(text, "{met} of {all} aims met").unwrap();
    text
}

fn markdown(rows: &[Row], rounds: usize, load: &str) -> String {
    let mut text = String::new();
    let (met, all, missed) = aims(rows);
    writeln!(text, "Processor: {}. Load at the start: {load}; at the end: {}. Rounds: {rounds}.\n", processor(), self::load())
        .unwrap();
    writeln!(text, "{met} of {all} aims met.{}\n", if missed.is_empty() { "" } else { " Missed:" }).unwrap();
    for r in &missed {
        let (score, aim, unit) = (r.score(), r.aim.unwrap(), if r.rust.is_some() { "×" } else { " MB/s" });
        let short = 100.0 * (1.0 - score / aim);
        writeln!(text, "- {} by `{}`: {score:.1}{unit}, aim {aim}{unit}, {short:.0} % short", r.title(), r.through).unwrap();
    }
    for (heading, first, rows) in tables(rows) {
        writeln!(text, "\n### {}`\n", heading.replace("by ", "by `")).unwrap();
        writeln!(text, "| {first} | ours ns | rust ns | noise | name | aim | met |\n|--:|--:|--:|--:|---|--:|---|").unwrap();
        rows.iter().for_each(|r| writeln!(text, "| {} |", r.fields().join(" | ")).unwrap());
    }
    text
}

fn csv(rows: &[Row]) -> String {
    let mut text =
        String::from("group,function,name,entries,bytes,score,aim,met,ours_least,ours_middle,rust_least,rust_middle\n");
    for r in rows {
        let group = GROUPS.iter().find(|g| g.0 == r.group).unwrap().1;
        let rust = r.rust.map_or(",".to_string(), |t| format!("{:.2},{:.2}", t.least, t.middle));
        let aim = r.aim.map_or(",".to_string(), |aim| format!("{aim},{}", if r.met() == Some(true) { "yes" } else { "no" }));
        let (entries, bytes, score) = (r.entries, r.bytes, r.score());
        write!(text, "{group},{},\"{}\",{entries},{bytes},{score:.2},{aim},", r.through, r.name).unwrap();
        writeln!(text, "{:.2},{:.2},{rust}", r.ours.least, r.ours.middle).unwrap();
    }
    text
}

fn processor() -> String {
    let all = fs::read_to_string("/proc/cpuinfo").unwrap_or_default();
    let name = all.lines().find(|l| l.starts_with("model name")).and_then(|l| l.split(':').nth(1));
    let cores = all.lines().filter(|l| l.starts_with("processor")).count();
    format!("{}, {cores} cores", name.unwrap_or("unknown").trim())
}

pub fn load() -> String {
    let all = fs::read_to_string("/proc/loadavg").unwrap_or_default();
    all.split(' ').next().unwrap_or("unknown").to_string()
}

const BEGIN: &str = "<!-- measured: what follows is written by oracle/bench --write -->\n";
const END: &str = "<!-- measured: end -->\n";

pub fn write(folder: &str, rows: &[Row], rounds: usize, load: &str) -> io::Result<()> {
    fs::write(format!("{folder}/speed.csv"), csv(rows))?;
    fs::write(format!("{folder}/speed.svg"), plot::svg(rows))?;
    let path = format!("{folder}/SPEED.md");
    let text = fs::read_to_string(&path)?;
    let marks = text.find(BEGIN).zip(text.find(END)).filter(|(from, to)| from < to);
    let (from, to) = marks.ok_or(io::Error::other(format!("{path} has not the two marks")))?;
    let text = format!("{}{BEGIN}\n{}\n{}", &text[..from], markdown(rows, rounds, load), &text[to..]);
    fs::write(path, text)
}
