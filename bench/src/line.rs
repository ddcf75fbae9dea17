//! Lines: a call of the library and a kernel in turns, and what both answer.
use crate::clock::now;
use crate::kernels::black_box;
use crate::memory::{counted, Taken};

/// Says what a line is of.
#[derive(Clone, Debug, PartialEq, Eq)]
pub struct Shape {
    pub call: String,
    /// Names the type of the rows.
    pub kind: &'static str,
    pub nulls: bool,
    /// Says the mean length of runs in rows, or what else the line is of.
    pub size: String,
}

/// Holds what both sides took: nanoseconds a unit by the middle turn, and memory.
#[derive(Clone, Debug)]
pub struct Line {
    pub shape: Shape,
    pub unit: &'static str,
    /// Counts how often the call was made in a turn.
    pub calls: usize,
    pub ours: f64,
    pub ours_taken: Taken,
    pub forms: Vec<Timed>,
}

/// Holds what one form of the Rust side took. The plain form has no name.
#[derive(Clone, Debug)]
pub struct Timed {
    pub name: &'static str,
    pub rust: f64,
    pub taken: Taken,
}

impl Line {
    /// Returns the form that took least.
    pub fn fastest(&self) -> &Timed {
        let least = |left: &&Timed, right: &&Timed| left.rust.total_cmp(&right.rust);
        self.forms.iter().min_by(least).expect("a line has a form")
    }

    /// Ours / Rust of the fastest form.
    pub fn ratio(&self) -> f64 {
        self.ours / self.fastest().rust
    }
}

/// Names a form of the Rust side.
pub type Form<'a, R> = (&'static str, &'a dyn Fn() -> R);

/// Holds all lines of one run of the program.
pub struct Bench {
    pub rows: usize,
    pub turns: usize,
    pub only: Vec<String>,
    pub lines: Vec<Line>,
    /// Names the lines at which two sides answer differently, and the form of Rust's.
    pub differ: Vec<(Shape, &'static str)>,
    /// Compares answers, which is done in the first round only.
    pub compares: bool,
}

impl Bench {
    pub fn wants(&self, call: &str) -> bool {
        self.only.is_empty() || self.only.iter().any(|name| call.starts_with(name.as_str()))
    }

    /// Times a line whose Rust side has one form.
    pub fn line<O, R>(
        &mut self,
        shape: Shape,
        units: (usize, &'static str),
        ours: impl Fn() -> O,
        rust: impl Fn() -> R,
        same: impl Fn(&O, &R) -> bool,
    ) {
        self.question(shape, units, ours, &[("", &rust)], same);
    }

    /// Runs ours and each form once to compare what they answer, and then all in turns.
    pub fn question<O, R>(
        &mut self,
        shape: Shape,
        (units, unit): (usize, &'static str),
        ours: impl Fn() -> O,
        forms: &[Form<R>],
        same: impl Fn(&O, &R) -> bool,
    ) {
        if !self.wants(&shape.call) {
            return;
        }
        let (left, ours_taken) = counted(&ours);
        let mut taken = Vec::new();
        for (name, rust) in forms {
            let (right, rust_taken) = counted(rust);
            taken.push(rust_taken);
            if self.compares && !same(&left, &right) {
                self.differ.push((shape.clone(), name));
            }
        }
        drop(left);
        let (ours, rust) = in_turns(self.turns, ours, forms);
        let each = |nanoseconds: u64| nanoseconds as f64 / units.max(1) as f64;
        let forms = forms.iter().zip(rust).zip(taken);
        let forms = forms.map(|(((name, _), rust), taken)| Timed {
            name,
            rust: each(rust),
            taken,
        });
        self.add(Line {
            shape,
            unit,
            calls: if unit == "call" { units } else { 1 },
            ours: each(ours),
            ours_taken,
            forms: forms.collect(),
        });
    }

    pub fn add(&mut self, line: Line) {
        line.tell();
        self.lines.push(line);
    }
}

/// Of lines that were measured in several rounds the one whose ratio is in the middle.
pub fn middle_rounds(lines: &[Line]) -> Vec<Line> {
    let mut rounds: Vec<Vec<Line>> = Vec::new();
    for line in lines {
        match rounds.iter_mut().find(|round| round[0].shape == line.shape) {
            Some(round) => round.push(line.clone()),
            None => rounds.push(vec![line.clone()]),
        }
    }
    let middle = |mut round: Vec<Line>| {
        round.sort_by(|left, right| left.ratio().total_cmp(&right.ratio()));
        round.swap_remove(round.len() / 2)
    };
    rounds.into_iter().map(middle).collect()
}

/// Times all in turns; the middle turn of ours, and of each form, counts.
fn in_turns<O, R>(turns: usize, ours: impl Fn() -> O, forms: &[Form<R>]) -> (u64, Vec<u64>) {
    let mut left = Vec::new();
    let mut right = vec![Vec::new(); forms.len()];
    for _ in 0..turns {
        for (times, (_, rust)) in right.iter_mut().zip(forms) {
            times.push(timed(rust));
        }
        left.push(timed(&ours));
    }
    let middle = |mut times: Vec<u64>| {
        times.sort_unstable();
        times[turns / 2]
    };
    (middle(left), right.into_iter().map(middle).collect())
}

/// Times a call; what it made is given back after the clock stopped.
fn timed<A>(call: impl FnOnce() -> A) -> u64 {
    let start = now();
    let answer = black_box(call());
    let taken = now() - start;
    drop(answer);
    taken
}

impl Line {
    fn tell(&self) {
        let Shape {
            call,
            kind,
            nulls,
            size,
        } = &self.shape;
        let nulls = if *nulls { "with null" } else { "" };
        eprint!(
            "{call:<34} {kind:<8} {nulls:<9} {size:>12}  ours {:>9.3} ns a {:<5}",
            self.ours, self.unit,
        );
        for Timed { name, rust, .. } in &self.forms {
            let name = if name.is_empty() { "plain" } else { name };
            eprint!("  {name} {rust:.3} ({:.2})", self.ours / rust);
        }
        eprintln!();
    }
}
