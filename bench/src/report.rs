//! The tables, as Markdown.
use crate::line::{Bench, Line, Shape};
use crate::memory::Taken;
use std::fmt::Write;

const MEANS: [&str; 3] = ["3", "16", "200"];
const GOAL: f64 = 1.15;

/// Returns all tables of a run.
pub fn tables(bench: &Bench) -> String {
    let mut text = String::new();
    let kinds: [(&str, fn(&Line) -> bool); 3] = [
        ("questions", in_grid),
        ("single calls", |line| !in_grid(line) && !is_small(line)),
        ("calls on ten rows", is_small),
    ];
    for (name, is_one) in kinds {
        let ratios: Vec<f64> = bench
            .lines
            .iter()
            .filter(|line| is_one(line))
            .map(Line::ratio)
            .collect();
        let (count, mean) = (ratios.len(), geometric_mean(&ratios));
        let above = ratios.iter().filter(|ratio| **ratio > GOAL).count();
        let _ = writeln!(
            text,
            "{count} {name}: ours / the fastest Rust form {mean:.2}, {above} above {GOAL}."
        );
    }
    text.push_str(
        "\n| Call | 3 rows | 16 rows | 200 rows | Geometric mean |\n|---|---|---|---|---|\n",
    );
    groups(bench)
        .iter()
        .for_each(|group| rows(&mut text, group));
    text.push_str("\n| Call | Of | Ours | Rust | Ours / Rust |\n|---|---|---|---|---|\n");
    for line in bench.lines.iter().filter(|line| !in_grid(line)) {
        single(&mut text, line);
    }
    let (rows, runs) = (bench.rows, bench.rows / 16);
    let _ = writeln!(
        text,
        "\nMemory that a call takes beside its column, and that the fastest form takes. {rows} rows of u64 are {} KiB; in \
         runs of 16 rows, with ends of 32 bits, some {runs} runs of {} KiB.",
        rows * 8 / 1024,
        runs * 12 / 1024,
    );
    text.push_str(
        "\n| Greatest bytes held | Of | Ours | Rust | Requests a call, ours | Rust |\n|---|---|---|---|---|---|\n",
    );
    for line in bench.lines.iter().filter(|line| shows_memory(line)) {
        memory(&mut text, line);
    }
    text
}

fn in_grid(line: &Line) -> bool {
    MEANS.contains(&line.shape.size.as_str())
}

fn is_small(line: &Line) -> bool {
    line.shape.call.ends_with(", ten rows")
        || line.shape.call == "list of ten" && line.shape.size == "10 rows"
}

/// Memory goes by rows and runs, so that one length of runs shows it; and what a call takes that has little to do.
fn shows_memory(line: &Line) -> bool {
    let of_runs = line.shape.size == "16" && !["i32", "u8"].contains(&line.shape.kind);
    of_runs || line.shape.call.ends_with(", ten rows")
}

fn geometric_mean(ratios: &[f64]) -> f64 {
    let logs: f64 = ratios.iter().map(|ratio| ratio.ln()).sum();
    (logs / ratios.len().max(1) as f64).exp()
}

/// Groups the lines of one call on one kind of rows, with null or without.
struct Group<'a> {
    of: &'a Shape,
    lines: Vec<&'a Line>,
}

/// Names a line relative to this form of Rust's; the plain one has no name.
fn title(shape: &Shape, form: &str) -> String {
    let kind = match shape.kind {
        "u64" | "i32" | "u8" => "",
        other => other,
    };
    let form = match (form, kind) {
        ("", _) => String::new(),
        (_, "") => format!(", beside {form}"),
        _ => format!(", beside {form},"),
    };
    let gap = if kind.is_empty() { "" } else { " of " };
    let nulls = if shape.nulls { ", with null" } else { "" };
    format!("{}{form}{gap}{kind}{nulls}", shape.call)
}

fn groups(bench: &Bench) -> Vec<Group<'_>> {
    let mut groups: Vec<Group> = Vec::new();
    for line in bench.lines.iter().filter(|line| in_grid(line)) {
        let same = |group: &&mut Group| title(group.of, "") == title(&line.shape, "");
        match groups.iter_mut().find(same) {
            Some(group) => group.lines.push(line),
            None => groups.push(Group {
                of: &line.shape,
                lines: vec![line],
            }),
        }
    }
    groups
}

/// Writes a row for each form: three cells of ratios, and their mean.
fn rows(text: &mut String, group: &Group) {
    for (at, form) in group.lines[0].forms.iter().enumerate() {
        let ratio = |line: &Line| line.ours / line.forms[at].rust;
        let cell = |mean: &str| {
            let of_mean = group.lines.iter().filter(|line| line.shape.size == mean);
            let ratios: Vec<String> = of_mean.map(|line| format!("{:.2}", ratio(line))).collect();
            ratios.join(" ")
        };
        let all: Vec<f64> = group.lines.iter().map(|line| ratio(line)).collect();
        let (cells, mean) = (MEANS.map(cell).join(" | "), geometric_mean(&all));
        let title = title(group.of, form.name);
        let _ = writeln!(text, "| {title} | {cells} | {mean:.2} |");
    }
}

fn single(text: &mut String, line: &Line) {
    let (size, unit) = (&line.shape.size, line.unit);
    for form in &line.forms {
        let (ours, rust, ratio) = (line.ours, form.rust, line.ours / form.rust);
        let title = title(&line.shape, form.name);
        let _ = writeln!(
            text,
            "| {title} | {size} | {ours:.1} ns a {unit} | {rust:.1} | {ratio:.2} |"
        );
    }
}

fn memory(text: &mut String, line: &Line) {
    let bytes = |taken: Taken| match taken.most_bytes {
        few @ ..=9_999 => format!("{few} B"),
        most => format!("{} KiB", most.div_ceil(1024)),
    };
    let requests = |taken: Taken| taken.requests / line.calls.max(1) as u64;
    let (ours, rust) = (line.ours_taken, line.fastest().taken);
    let _ = writeln!(
        text,
        "| {} | {} | {} | {} | {} | {} |",
        title(&line.shape, ""),
        line.shape.kind,
        bytes(ours),
        bytes(rust),
        requests(ours),
        requests(rust),
    );
}
