//! Times the port (the static library) and the Rust bodies on the same calls, after it has seen that their answers are equal.
//!     bench [--quick] CHART..
use std::hint::black_box;

mod account;
mod chart;
mod port;

type Book = [u64; 34];
const ENTRIES: usize = 512;
const SECTIONS: u64 = 16;
const TESTS: usize = 16;

/// What is timed on a chart.
#[derive(Clone, Copy)]
enum Work {
    Check,
    Write,
    Insert,
    Method(i64),
    Mixed,
}
const WORKS: [(&str, Work); 7] =
    [("check", Work::Check), ("write", Work::Write), ("insert", Work::Insert), ("method 1", Work::Method(1)), ("method 2", Work::Method(2)), ("method 3", Work::Method(3)), ("mixed", Work::Mixed)];

/// Numbers that are the same in each run.
struct Numbers(u64);
impl Numbers {
    fn below(&mut self, n: usize) -> usize {
        self.0 = self.0.wrapping_mul(6364136223846793005).wrapping_add(1442695040888963407);
        ((self.0 >> 33) as usize) % n
    }
}

fn gcd(a: i64, b: i64) -> i64 {
    if b == 0 { a.abs() } else { gcd(b, a % b) }
}

/// Loads on a chart: of each 32 there are 28 in faces taken at random, 2 at a vertex, 1 on an edge that has a place for it,
/// and 1 anywhere on the grid.
fn loads(t: &chart::Tables, r: &mut Numbers) -> Vec<(i64, i64)> {
    let at = |h: usize| t.vertices[t.half[h][0]];
    let load = |i: usize, r: &mut Numbers| {
        if i % 32 < 2 {
            let v = t.vertices[r.below(t.vertices.len())];
            return (v[0], v[1]);
        }
        if i % 32 == 2 {
            for _ in 0..1000 {
                let h = r.below(t.half.len());
                let (a, b) = (at(h), at(h ^ 1));
                let (dx, dy) = (b[0] - a[0], b[1] - a[1]);
                let g = gcd(dx, dy);
                if g > 1 {
                    return (a[0] + dx / g, a[1] + dy / g);
                }
            }
        }
        if i % 32 == 3 {
            return (r.below(20_001) as i64 - 10_000, r.below(20_001) as i64 - 10_000);
        }
        let h = t.faces[1 + r.below(t.faces.len() - 1)];
        let corners = [at(t.half[h][2]), at(h), at(t.half[h][1])];
        let w = [1 + r.below(1000) as i64, 1 + r.below(1000) as i64, 1 + r.below(1000) as i64];
        let sum: i64 = w.iter().sum();
        let mean = |k: usize| (0..3).map(|j| w[j] * corners[j][k]).sum::<i64>().div_euclid(sum);
        (mean(0), mean(1))
    };
    (0..ENTRIES).map(|i| load(i, r)).collect()
}

fn fresh() -> Book {
    let mut b = [0; 34];
    b[0] = SECTIONS;
    b
}

/// A chart's tables as numbers in file order.
struct Numbered {
    vertices: Vec<i64>,
    half: Vec<i64>,
    faces: Vec<i64>,
}
impl Numbered {
    fn of(t: &chart::Tables) -> Self {
        Numbered {
            vertices: t.vertices.concat(),
            half: t.half.iter().flatten().map(|&n| n as i64).collect(),
            faces: t.faces.iter().map(|&n| n as i64).collect(),
        }
    }
}

/// What a call is lent to write: a batch its answers; the writer and a new bench test their text, and the text's length as the first answer.
#[derive(Clone, PartialEq)]
struct Lent {
    answers: Vec<u64>,
    text: Vec<u8>,
}

/// One call of the port or of the Rust, or one for each new bench test: its refusal, and for a batch the book after it.
struct Case<'a> {
    text: &'a [u8],
    tables: &'a Numbered,
    tests: &'a [(i64, i64)],
    entries: Vec<i64>,
    work: Work,
}
impl Case<'_> {
    fn port(&self, lent: &mut Lent) -> (u64, Book) {
        let mut book = fresh();
        let t = self.tables;
        let n = match self.work {
            Work::Check => port::check(self.text),
            Work::Write => port::write(&t.vertices, &t.half, &t.faces, &mut lent.text, &mut lent.answers[..1]),
            Work::Insert => self.tests.iter().map(|&q| port::insert(self.text, q, 7, &mut lent.text, &mut lent.answers[..1])).max().unwrap_or(0),
            _ => port::batch(&mut book, self.text, &self.entries, &mut lent.answers),
        };
        (n, book)
    }
    fn rust(&self, lent: &mut Lent, scan: bool) -> (u64, Book) {
        let mut book = fresh();
        let t = self.tables;
        let n = match self.work {
            Work::Check => account::check(self.text),
            Work::Write => match chart::write(&t.vertices, &t.half, &t.faces, &mut lent.text) {
                Ok(n) => {
                    lent.answers[0] = n as u64;
                    0
                }
                Err(n) => n,
            },
            Work::Insert => {
                for &q in self.tests {
                    lent.answers[0] = account::insert(self.text, q, 7, scan, &mut lent.text).unwrap() as u64;
                }
                0
            }
            _ => account::batch(&mut book, self.text, &self.entries, &mut lent.answers),
        };
        (n, book)
    }
}

/// The thread's own processor time in nanoseconds: what else runs on the machine does not count.
fn now() -> f64 {
    extern "C" {
        fn clock_gettime(clock: i32, time: *mut [i64; 2]) -> i32;
    }
    const THREAD_CPUTIME: i32 = 3;
    let mut t = [0i64; 2];
    assert_eq!(unsafe { clock_gettime(THREAD_CPUTIME, &mut t) }, 0);
    t[0] as f64 * 1e9 + t[1] as f64
}

/// Nanoseconds for one call, over so many.
fn time(calls: usize, mut call: impl FnMut()) -> f64 {
    let start = now();
    for _ in 0..calls {
        call();
    }
    (now() - start) / calls as f64
}

fn median(mut v: Vec<f64>) -> f64 {
    v.sort_by(f64::total_cmp);
    v[v.len() / 2]
}

fn run(name: &str, case: &Case, work: &str, rounds: usize, slice_ns: f64) {
    let more = if let Work::Insert = case.work { 249 } else { 0 };
    let mut a = Lent { answers: vec![0; ENTRIES], text: vec![0; case.text.len() + more] };
    let mut b = a.clone();
    assert_eq!(case.port(&mut a), case.rust(&mut b, true), "{name}, {work}: refusal or book");
    assert!(a == b, "{name}, {work}: answers");
    if let Work::Write = case.work {
        assert!(a.text == case.text && a.answers[0] == case.text.len() as u64, "{name}, {work}: the file");
    }
    let port = |a: &mut Lent| {
        black_box(case.port(black_box(a)));
    };
    let rust = |b: &mut Lent| {
        black_box(case.rust(black_box(b), false));
    };
    let calls = |ns: f64| (slice_ns / ns).ceil().max(1.0) as usize;
    let (np, nr) = (calls(time(3, || port(&mut a))), calls(time(3, || rust(&mut b))));
    let (mut p, mut r) = (Vec::new(), Vec::new());
    for _ in 0..rounds {
        p.push(time(np, || port(&mut a)));
        r.push(time(nr, || rust(&mut b)));
    }
    let share = if let Work::Insert = case.work { case.tests.len() as f64 } else { 1.0 };
    let (p, r) = (median(p) / share, median(r) / share);
    let each = if let Work::Check | Work::Write | Work::Insert = case.work { String::new() } else { format!("{:>9.0}{:>9.0}", p / ENTRIES as f64, r / ENTRIES as f64) };
    println!("{name:<12}{work:<10}{:>11.2}{:>11.2}{:>8.2}{each}", p / 1000.0, r / 1000.0, p / r);
}

fn main() {
    let mut paths: Vec<String> = std::env::args().skip(1).collect();
    let quick = paths.iter().any(|a| a == "--quick");
    let only = std::env::var("ONLY").ok();
    paths.retain(|a| a != "--quick");
    let (rounds, slice_ns) = if quick { (1, 1e6) } else { (15, 20e6) };
    println!("{:<12}{:<10}{:>11}{:>11}{:>8}{:>9}{:>9}", "chart", "work", "port us", "Rust us", "ratio", "port ns", "Rust ns");
    for path in &paths {
        let text = std::fs::read(path).expect("a chart");
        let t = chart::read(&text).ok().expect("an accepted chart");
        let name = std::path::Path::new(path).file_stem().unwrap().to_str().unwrap();
        let at = loads(&t, &mut Numbers(7));
        let tables = Numbered::of(&t);
        // those that can be put in; of a full chart none can
        let mut room = vec![0; text.len() + 249];
        let tests: Vec<_> = at.iter().copied().filter(|&q| account::insert(&text, q, 7, false, &mut room).is_ok()).take(TESTS).collect();
        for (label, work) in WORKS {
            if only.as_ref().is_some_and(|o| o != label) || tests.is_empty() && matches!(work, Work::Insert) {
                continue;
            }
            let method = |i: usize| match work {
                Work::Method(m) => m,
                _ => 1 + i as i64 % 3,
            };
            let entries = at.iter().enumerate().flat_map(|(i, &(x, y))| [1, (i as u64 % SECTIONS) as i64, x, y, method(i)]).collect();
            run(name, &Case { text: &text, tables: &tables, tests: &tests, entries, work }, label, rounds, slice_ns);
        }
    }
}
