// The same labelling written plainly: the same memory, the same rounds, the same questions.
use std::time::Instant;

#[derive(Clone, Copy)]
enum Quantifier {
    Exists,
    Every,
}

#[derive(Clone, Copy)]
#[allow(dead_code)]
enum Form {
    Truth,
    Falsity,
    Atom(u8),
    Absent(u8),
    And(u8, u8),
    Or(u8, u8),
    Next(Quantifier, u8),
    Until(Quantifier, u8, u8),
    Release(Quantifier, u8, u8),
}

trait Machine {
    fn count(&self) -> usize;
    fn atoms(&self, s: usize) -> u32;
    fn leads(&self, s: usize, t: usize) -> bool;
}

struct Timer {
    states: usize,
    atom: u32,
}

impl Machine for Timer {
    fn count(&self) -> usize {
        self.states
    }
    fn atoms(&self, s: usize) -> u32 {
        if s == self.states - 1 { 1 << self.atom } else { 0 }
    }
    fn leads(&self, s: usize, t: usize) -> bool {
        let last = self.states - 1;
        if s < last { t == s + 1 } else { s == last && t == last }
    }
}

struct Row {
    atoms: u32,
    degree: u8,
    offsets: [i16; 8],
}

struct Sheet {
    rows: Vec<Row>,
}

impl Machine for Sheet {
    fn count(&self) -> usize {
        self.rows.len()
    }
    fn atoms(&self, s: usize) -> u32 {
        if s < self.rows.len() { self.rows[s].atoms } else { 0 }
    }
    fn leads(&self, s: usize, t: usize) -> bool {
        if s >= self.rows.len() || t >= self.rows.len() {
            return false;
        }
        let row = &self.rows[s];
        row.offsets[..row.degree as usize].iter().any(|o| s as i64 + *o as i64 == t as i64)
    }
}

fn has(w: u64, f: u8) -> bool {
    w >> f & 1 == 1
}

fn put(w: u64, f: u8, b: bool) -> u64 {
    w & !(1 << f) | (b as u64) << f
}

// Whether some successor of s is marked with form f, or all are.
fn successors<M: Machine>(m: &M, q: Quantifier, marks: &[u64], f: u8, s: usize) -> bool {
    let n = m.count();
    match q {
        Quantifier::Exists => (0..n).any(|t| has(marks[t], f) && m.leads(s, t)),
        Quantifier::Every => !(0..n).any(|t| !has(marks[t], f) && m.leads(s, t)),
    }
}

fn holds<M: Machine>(m: &M, form: Form, marks: &[u64], f: u8, s: usize) -> bool {
    let w = marks[s];
    match form {
        Form::Truth => true,
        Form::Falsity => false,
        Form::Atom(p) => m.atoms(s) >> p & 1 == 1,
        Form::Absent(p) => m.atoms(s) >> p & 1 == 0,
        Form::And(a, b) => has(w, a) && has(w, b),
        Form::Or(a, b) => has(w, a) || has(w, b),
        Form::Next(q, a) => successors(m, q, marks, a, s),
        Form::Until(q, a, b) => has(w, b) || has(w, a) && successors(m, q, marks, f, s),
        Form::Release(q, a, b) => has(w, b) && (has(w, a) || successors(m, q, marks, f, s)),
    }
}

// Repeats the round of form f from no state, or from all, and answers how many rounds that took.
fn settle<M: Machine>(m: &M, form: Form, marks: &mut [u64], scratch: &mut [u8], f: u8, all: bool) -> usize {
    let n = m.count();
    for s in 0..n {
        marks[s] = put(marks[s], f, all);
    }
    let mut rounds = 0;
    loop {
        rounds += 1;
        for s in 0..n {
            scratch[s] = if has(marks[s], f) == all { holds(m, form, marks, f, s) } else { !all } as u8;
        }
        let mut changed = false;
        for s in 0..n {
            let new = scratch[s] == 1;
            changed |= new != has(marks[s], f);
            marks[s] = put(marks[s], f, new);
        }
        if !changed {
            return rounds;
        }
    }
}

fn label<M: Machine>(table: &[Form], m: &M, marks: &mut [u64], scratch: &mut [u8]) -> usize {
    let n = m.count();
    marks[..n].fill(0);
    let mut rounds = 0;
    for (f, &form) in table.iter().enumerate() {
        let f = f as u8;
        match form {
            Form::Until(..) => rounds += settle(m, form, marks, scratch, f, false),
            Form::Release(..) => rounds += settle(m, form, marks, scratch, f, true),
            _ => {
                for s in 0..n {
                    let b = holds(m, form, marks, f, s);
                    marks[s] = put(marks[s], f, b);
                }
            }
        }
    }
    scratch[..n].fill(0);
    rounds
}

fn table() -> Vec<Form> {
    let mut table = vec![Form::Truth, Form::Falsity, Form::Atom(0), Form::Absent(0)];
    for _ in 0..15 {
        table.push(Form::Until(Quantifier::Exists, 0, 2));
        table.push(Form::Until(Quantifier::Every, 0, 2));
        table.push(Form::Release(Quantifier::Exists, 1, 3));
        table.push(Form::Release(Quantifier::Every, 1, 3));
    }
    table
}

fn run<M: Machine>(name: &str, m: &M) {
    let table = table();
    let mut marks = [0u64; 1024];
    let mut scratch = [0u8; 1024];
    let begin = Instant::now();
    let rounds = label(&table, m, &mut marks, &mut scratch);
    let micros = begin.elapsed().as_micros();
    let sum = marks.iter().fold(0u64, |sum, mark| sum.wrapping_mul(31).wrapping_add(*mark));
    println!("{name} {} {rounds} {sum} {micros}", m.count());
}

fn main() {
    for n in [64, 256, 1024] {
        run("timer", &Timer { states: n, atom: 0 });
        let row = |s: usize| Row { atoms: (s + 1 == n) as u32, degree: 1, offsets: [(s + 1 < n) as i16, 0, 0, 0, 0, 0, 0, 0] };
        run("sheet", &Sheet { rows: (0..n).map(row).collect() });
    }
}
