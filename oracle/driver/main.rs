//! The oracle's driver. See README.md for the commands and the formats.
use spade::delaunay_core::Dcel;
use spade::{
    oracle_edges, oracle_loader, DelaunayTriangulation, FloatTriangulation, HasPosition, LastUsedVertexHintGenerator,
    Point2, PositionInTriangulation, Triangulation,
};
use std::collections::HashSet;
use std::fmt::Write as _;
use std::io::{Read, Write as _};
use std::panic::{catch_unwind, AssertUnwindSafe};
use std::sync::atomic::{AtomicBool, Ordering};

mod chart;
mod inserts;
use chart::Chart;

/// The kinds of lines that a case's answers have.
const KINDS: [&str; 12] = ["verdict", "written", "room", "gradient", "query", "location", "barycentric", "edges", "natural", "value", "batch", "log"];
/// Those that each query has.
const QUERY: [&str; 6] = ["query", "location", "barycentric", "edges", "natural", "value"];

/// The kinds of lines to print: all of them, or those of `--only A,B,..`, for a port that has not every call yet.
struct Only(Option<Vec<String>>);
impl Only {
    /// Takes the option out of the arguments.
    fn take(a: &mut Vec<String>) -> Result<Only, String> {
        let Some(i) = a.iter().position(|w| w == "--only") else {
            return Ok(Only(None));
        };
        if i + 1 == a.len() {
            return Err("--only wants a list of kinds".into());
        }
        let list: Vec<String> = a[i + 1].split(',').map(String::from).collect();
        if let Some(k) = list.iter().find(|k| !KINDS.contains(&k.as_str())) {
            return Err(format!("{k} is not a kind of line; there are {}", KINDS.join(", ")));
        }
        a.drain(i..i + 2);
        Ok(Only(Some(list)))
    }
    fn has(&self, kind: &str) -> bool {
        self.0.as_ref().map_or(true, |list| list.iter().any(|k| k == kind))
    }
}

/// Set while a body of the sources runs under guard, which reports its panic.
static GUARDED: AtomicBool = AtomicBool::new(false);

struct Test {
    position: Point2<f64>,
    value: f64,
}
impl HasPosition for Test {
    type Scalar = f64;
    fn position(&self) -> Point2<f64> {
        self.position
    }
}
type Tri = DelaunayTriangulation<Test>;

fn dcel(c: &Chart) -> Dcel<Test> {
    let vs = c
        .vertices
        .iter()
        .map(|v| {
            let t = Test { position: Point2::new(v[0] as f64, v[1] as f64), value: v[2] as f64 };
            (t, v[3] as usize)
        })
        .collect();
    oracle_loader::dcel_of_tables(vs, &c.half, &c.faces)
}

fn triangulation(c: &Chart) -> Tri {
    let dcel = dcel(c);
    dcel.sanity_check(); // of the sources: an accepted chart passes it
    Tri::from_parts(dcel, LastUsedVertexHintGenerator::default(), 0)
}

fn bits(f: f64) -> String {
    if f.is_nan() {
        "nan".into()
    } else {
        f.to_bits().to_string()
    }
}

/// 01's charge, or 16.
fn charge(v: f64) -> Result<u64, u32> {
    if v.is_nan() || v < -0.5 || v >= 1_000_000.5 {
        return Err(16);
    }
    if v < 0.0 {
        return Ok(0);
    }
    // CR 5
    if v > 0.0 && v < 0.5 && std::env::var("LIGHT").as_deref() == Ok("1") {
        return Ok(1);
    }
    let n = v.floor(); // v - n is exact for v >= 0
    Ok(n as u64 + u64::from(v - n >= 0.5))
}

fn on_grid(x: i64, y: i64) -> bool {
    x.unsigned_abs() <= chart::grid() as u64 && y.unsigned_abs() <= chart::grid() as u64
}

struct Oracle {
    tri: Tri,
    half: usize,
    gradients: Vec<[f64; 2]>,
    anomalies: Vec<String>,
}

/// Weights in order, or a refusal.
type Weights = Result<Vec<(usize, f64)>, u32>;
/// A natural answer: the opened count with the edges or the weights in order, or a refusal.
type Edges = Result<(usize, Vec<usize>), u32>;
type Shares = Result<(usize, Vec<(usize, f64)>), u32>;

const NO_PLACE: &str = "CR 2: a load without a place";
const BROKEN_TURN: &str = "CR 11: the unmodified Rust panicked (a broken turn, or no end)";

impl Oracle {
    fn new(c: &Chart) -> Self {
        let tri = triangulation(c);
        num_traits::set_fuel(u64::MAX);
        let gradients = {
            let nn = tri.natural_neighbor();
            tri.vertices().map(|v| nn.estimate_gradient(v, |v| v.data().value)).collect()
        };
        Oracle { tri, half: c.half.len(), gradients, anomalies: Vec::new() }
    }

    /// Runs a body of the sources under fuel. No turn is broken on an accepted chart (02, CR 11): a panic there, or no end, ends the run.
    fn guarded<R>(&self, what: &str, x: i64, y: i64, f: impl FnOnce(&Tri) -> R) -> R {
        robust::log_start(8 * self.half as u64 + 64);
        num_traits::set_fuel(16 * (self.half as u64 + 64) * (self.half as u64 + 64));
        GUARDED.store(true, Ordering::Relaxed);
        let r = catch_unwind(AssertUnwindSafe(|| f(&self.tri)));
        GUARDED.store(false, Ordering::Relaxed);
        num_traits::set_fuel(u64::MAX);
        r.unwrap_or_else(|_| panic!("{BROKEN_TURN}: {what} {x} {y}"))
    }

    /// Ok: a place inside; Err: 13 or 14. Every load on the grid has a place or is outside (02, CR 2).
    fn place(&self, x: i64, y: i64) -> Result<PositionInTriangulation, u32> {
        if !on_grid(x, y) {
            return Err(13);
        }
        match self.tri.locate(Point2::new(x as f64, y as f64)) {
            PositionInTriangulation::OutsideOfConvexHull(_) => Err(14),
            PositionInTriangulation::NoTriangulation => panic!("{NO_PLACE}"),
            p => Ok(p),
        }
    }

    fn location(&self, x: i64, y: i64) -> String {
        if !on_grid(x, y) {
            return "refused 13".into();
        }
        match self.tri.locate(Point2::new(x as f64, y as f64)) {
            PositionInTriangulation::OnVertex(v) => format!("vertex {}", v.index()),
            PositionInTriangulation::OnEdge(e) => format!("edge {}", e.index()),
            PositionInTriangulation::OnFace(f) => format!("face {}", f.index()),
            PositionInTriangulation::OutsideOfConvexHull(e) => format!("outside {}", e.index()),
            PositionInTriangulation::NoTriangulation => panic!("{NO_PLACE}"),
        }
    }

    fn barycentric(&mut self, x: i64, y: i64) -> Weights {
        self.place(x, y)?;
        let p = Point2::new(x as f64, y as f64);
        Ok(self.guarded("barycentric", x, y, |t| {
            let mut r = Vec::new();
            t.barycentric().get_weights(p, &mut r);
            r.into_iter().map(|(v, w)| (v.index(), w)).collect()
        }))
    }

    fn edges(&mut self, x: i64, y: i64) -> Edges {
        let place = self.place(x, y)?;
        let p = Point2::new(x as f64, y as f64);
        let e = self.guarded("edges", x, y, |t| oracle_edges(t, p).iter().map(|e| e.index()).collect());
        Ok((self.opened("edges", place, x, y), e))
    }

    fn natural(&mut self, x: i64, y: i64) -> Shares {
        let place = self.place(x, y)?;
        let p = Point2::new(x as f64, y as f64);
        let w = self.guarded("natural", x, y, |t| {
            let mut r = Vec::new();
            t.natural_neighbor().get_weights(p, &mut r);
            r.into_iter().map(|(v, w)| (v.index(), w)).collect()
        });
        Ok((self.opened("natural", place, x, y), w))
    }

    /// How many faces the guarded call just made has opened, by the circle tests that it asked for. A second opening, or one of the start
    /// face, is where 01 may differ from the Rust.
    fn opened(&mut self, what: &str, place: PositionInTriangulation, x: i64, y: i64) -> usize {
        let mut seen = HashSet::new();
        if let PositionInTriangulation::OnFace(f) = place {
            let mut k = self.tri.face(f).positions().map(|p| (p.x as i64, p.y as i64));
            k.sort();
            seen.insert(k);
        }
        for (k, inside) in robust::log_take() {
            if inside && !seen.insert(k) {
                self.anomalies.push(format!("{what} {x} {y}: a face is opened twice"));
            }
        }
        seen.len()
    }

    fn value(&mut self, x: i64, y: i64, method: i64) -> Result<f64, u32> {
        if !(1..=3).contains(&method) {
            return Err(12);
        }
        self.place(x, y)?;
        let p = Point2::new(x as f64, y as f64);
        let g = self.gradients.clone();
        Ok(self.guarded("value", x, y, |t| {
            let nn = t.natural_neighbor();
            match method {
                1 => t.barycentric().interpolate(|v| v.data().value, p),
                2 => nn.interpolate(|v| v.data().value, p),
                _ => nn.interpolate_gradient(|v| v.data().value, |v| g[v.index()], 1.0, p),
            }
            .unwrap()
        }))
    }

    fn answers(&mut self, queries: &[(i64, i64)], only: &Only) -> String {
        let mut o = String::new();
        if only.has("gradient") {
            for (v, g) in self.gradients.iter().enumerate() {
                writeln!(o, "gradient {} {} {}", v, bits(g[0]), bits(g[1])).unwrap();
            }
        }
        if QUERY.iter().any(|k| only.has(k)) {
            queries.iter().for_each(|&q| self.query(q, only, &mut o));
        }
        for a in &self.anomalies {
            writeln!(o, "anomaly {a}").unwrap();
        }
        o
    }

    /// The lines of one query.
    fn query(&mut self, (x, y): (i64, i64), only: &Only, o: &mut String) {
        let listed = |w: Vec<(usize, f64)>| w.iter().fold(w.len().to_string(), |s, (v, w)| s + &format!(" {} {}", v, bits(*w)));
        let refused = |n: u32| format!("refused {n}");
        if only.has("query") {
            writeln!(o, "query {x} {y}").unwrap();
        }
        if only.has("location") {
            writeln!(o, "location {}", self.location(x, y)).unwrap();
        }
        if only.has("barycentric") {
            writeln!(o, "barycentric {}", self.barycentric(x, y).map_or_else(refused, listed)).unwrap();
        }
        if only.has("edges") {
            match self.edges(x, y) {
                Ok((n, e)) => {
                    write!(o, "edges {} {}", n, e.len()).unwrap();
                    e.iter().for_each(|e| write!(o, " {e}").unwrap());
                    o.push('\n');
                }
                Err(n) => writeln!(o, "edges refused {n}").unwrap(),
            }
        }
        if only.has("natural") {
            let shares = self.natural(x, y).map_or_else(refused, |(n, w)| format!("{n} {}", listed(w)));
            writeln!(o, "natural {shares}").unwrap();
        }
        if only.has("value") {
            for m in 1..=3 {
                match self.value(x, y, m) {
                    Ok(v) => {
                        let c = charge(v).map_or_else(|n| format!("refused {n}"), |n| n.to_string());
                        writeln!(o, "value {m} {} charge {c}", bits(v)).unwrap();
                    }
                    Err(n) => writeln!(o, "value {m} refused {n}").unwrap(),
                }
            }
        }
    }
}

const FULL: u64 = 1_000_000_000_000;

#[derive(Clone, PartialEq)]
struct Book {
    sections: u64,
    retired: u64,
    wear: [u64; 16],
    bends: [u64; 16],
}
impl Book {
    fn fresh(s: u64) -> Self {
        Book { sections: s, retired: 0, wear: [0; 16], bends: [0; 16] }
    }
    fn total(&self) -> u128 {
        self.wear.iter().map(|&w| w as u128).sum::<u128>() + self.retired as u128
    }
    fn bad(&self) -> bool {
        let s = self.sections;
        !(1..=16).contains(&s)
            || self.total() > FULL as u128
            || self.bends.iter().any(|&b| b > FULL)
            || (s as usize..16).any(|i| self.wear[i] != 0 || self.bends[i] != 0)
    }
    /// One entry: its answer, the book changed when it is accepted.
    fn entry(&mut self, o: &mut Oracle, e: &[i64]) -> u64 {
        match self.accept(o, e) {
            Ok(n) => n,
            Err(n) => 2_000_000 + n as u64,
        }
    }
    fn accept(&mut self, o: &mut Oracle, e: &[i64]) -> Result<u64, u32> {
        let [kind, section, x, y, method] = [e[0], e[1], e[2], e[3], e[4]];
        if !(1..=2).contains(&kind) || section < 0 || section >= self.sections as i64 {
            return Err(12);
        }
        let s = section as usize;
        if kind == 2 {
            if x != 0 || y != 0 || method != 0 {
                return Err(12);
            }
            self.retired += self.wear[s];
            self.wear[s] = 0;
            self.bends[s] = 0;
            return Ok(0);
        }
        let n = charge(o.value(x, y, method)?)?; // 12 (method), 13, 14, then 16
        if self.total() + n as u128 > FULL as u128 || self.bends[s] == FULL {
            return Err(17);
        }
        self.wear[s] += n;
        self.bends[s] += 1;
        Ok(n)
    }
}

fn bends(chart: &[u8], log: &[u8]) -> String {
    let run = || -> Result<String, u32> {
        let c = chart::read(chart, None)?;
        if log.len() % 41 != 0 {
            return Err(3);
        }
        if log.len() / 41 > 512 {
            return Err(4);
        }
        let entries: Option<Vec<Vec<i64>>> = (0..log.len() / 41).map(|i| chart::line(log, 41 * i, 5)).collect();
        let entries = entries.ok_or(5u32)?;
        let mut o = Oracle::new(&c);
        let mut book = Book::fresh(2);
        let mut out = String::new();
        for (i, e) in entries.iter().enumerate() {
            let a = book.entry(&mut o, e);
            writeln!(out, "{:>8}{:>8}", i + 1, a).unwrap();
        }
        for s in 0..2 {
            writeln!(out, "{:>8}{:>16}{:>16}", s, book.wear[s], book.bends[s]).unwrap();
        }
        writeln!(out, "{:>16}", book.retired).unwrap();
        Ok(out)
    };
    run().unwrap_or_else(|n| format!("{n:>8}\n"))
}

/// `batch`: see README. Lines of numbers: sections, retired and room (the answer slice's length); 16 of wear and bends; the entry
/// slice. Then for each further batch: room and cut, and its entry slice.
fn batch(chart: &[u8], spec: &str) -> String {
    let lines: Vec<Vec<i128>> = spec.lines().map(|l| l.split_whitespace().map(|w| w.parse().unwrap()).collect()).collect();
    let mut book = Book::fresh(lines[0][0] as u64);
    book.retired = lines[0][1] as u64;
    for i in 0..16 {
        book.wear[i] = lines[1 + i][0] as u64;
        book.bends[i] = lines[1 + i][1] as u64;
    }
    let mut out = one_batch(&mut book, chart, lines[0][2], &lines[17]);
    for further in lines[18..].chunks(2) {
        let kept = (chart.len() as i128 - further[0][1]).max(0) as usize;
        out += &one_batch(&mut book, &chart[..kept], further[0][0], &further[1]);
    }
    out
}

/// The answers to one batch, and the book after it.
fn one_batch(book: &mut Book, chart: &[u8], room: i128, numbers: &[i128]) -> String {
    let entries: Vec<i64> = numbers.iter().map(|&v| v as i64).collect();
    let mut run = || -> Result<Vec<u64>, u32> {
        if book.bad() {
            return Err(1);
        }
        if entries.len() % 5 != 0 || room < entries.len() as i128 / 5 {
            return Err(2);
        }
        let c = chart::read(chart, None)?;
        let mut o = Oracle::new(&c);
        Ok(entries.chunks(5).map(|e| book.entry(&mut o, e)).collect())
    };
    let mut out = match run() {
        Ok(a) => a.iter().fold("answers".to_string(), |s, n| s + &format!(" {n}")),
        Err(n) => format!("refused {n}"),
    };
    write!(out, "\nbook {} {}\n", book.sections, book.retired).unwrap();
    for i in 0..16 {
        writeln!(out, "{} {}", book.wear[i], book.bends[i]).unwrap();
    }
    out
}

/// The numbers of a text, or none where there is no such file.
fn numbers<T: std::str::FromStr>(path: &std::path::Path) -> Vec<T> {
    let text = std::fs::read_to_string(path).unwrap_or_default();
    let number = |w: &str| w.parse().unwrap_or_else(|_| panic!("{}: {w} is not a number", path.display()));
    text.split_whitespace().map(number).collect()
}

fn queries(path: &std::path::Path) -> Vec<(i64, i64)> {
    numbers(path).chunks(2).map(|c| (c[0], c[1])).collect()
}

/// The lines of a chart written back; none where it has no tables.
fn written(chart: &[u8]) -> String {
    let Ok([v, h, f]) = chart::numbers(chart, None) else {
        return String::new();
    };
    let n = chart.len();
    let answer = |v: &[i64], h: &[i64], f: &[i64], room: usize| -> String {
        let mut lent = vec![0u8; room];
        let (mut said, kept) = match chart::write(v, h, f, &mut lent) {
            Err(n) => (format!(" refused {n}"), 0),
            Ok(m) => (format!(" {m} {}", if m <= n && lent[..m] == chart[..m] { "same" } else { "other" }), m),
        };
        if lent[kept..].iter().any(|&b| b != 0) {
            said += " changed";
        }
        said
    };
    let but = |t: &'_ [i64], k: usize| t[..t.len() - k].to_vec();
    let mut o = String::new();
    writeln!(o, "written{}", answer(&v, &h, &f, n)).unwrap();
    writeln!(o, "short{}", answer(&v, &h, &f, n - 1)).unwrap();
    writeln!(o, "longer{}", answer(&v, &h, &f, n + 8)).unwrap();
    writeln!(o, "uneven{}{}", answer(&but(&v, 1), &h, &f, n), answer(&v, &but(&h, 1), &f, n)).unwrap();
    writeln!(o, "less{}{}{}", answer(&but(&v, 4), &h, &f, n), answer(&v, &but(&h, 4), &f, n), answer(&v, &h, &but(&f, 1), n)).unwrap();
    o
}

fn answers(chart: &[u8], q: &[(i64, i64)], rooms: &[usize], only: &Only) -> (String, usize) {
    let read = chart::read(chart, None);
    let mut s = String::new();
    if only.has("verdict") {
        writeln!(s, "verdict {}", read.as_ref().err().unwrap_or(&0)).unwrap();
    }
    if only.has("written") {
        s += &written(chart);
    }
    if only.has("room") {
        for &r in rooms {
            writeln!(s, "room {r} {}", chart::read(chart, Some(r)).err().unwrap_or(0)).unwrap();
        }
    }
    match read {
        Err(_) => (s, 0),
        Ok(c) => {
            let mut o = Oracle::new(&c);
            s += &o.answers(q, only);
            (s, o.anomalies.len())
        }
    }
}

fn main() {
    std::panic::set_hook(Box::new(|i| {
        if !GUARDED.load(Ordering::Relaxed) {
            eprintln!("oracle: {i}");
        }
    }));
    let mut a: Vec<String> = std::env::args().collect();
    let only = Only::take(&mut a).unwrap_or_else(|e| {
        eprintln!("oracle: {e}");
        std::process::exit(2);
    });
    let file = |i: usize| std::fs::read(&a[i]).unwrap_or_default();
    match a.get(1).map(|s| s.as_str()) {
        Some("check") => {
            for p in &a[2..] {
                let n = chart::read(&std::fs::read(p).unwrap_or_default(), None).err().unwrap_or(0);
                println!("{n} {p}");
            }
        }
        // the refusal of a natural call with answer slices of the given length
        Some("room") => {
            let room: usize = a[3].parse().unwrap();
            println!("{}", chart::read(&file(2), Some(room)).err().unwrap_or(0));
        }
        Some("answers") => {
            let rooms = a.get(4).map_or(Vec::new(), |p| numbers(p.as_ref()));
            print!("{}", answers(&file(2), &queries(a[3].as_ref()), &rooms, &only).0)
        }
        // answers on a chart that 8 to 11 may refuse: shows that the oracle notices second openings, and ends at a broken turn
        Some("force") => match chart::read_loose(&file(2)) {
            Err(n) => println!("verdict {n}"),
            Ok(c) => print!("verdict 0\n{}", Oracle::new(&c).answers(&queries(a[3].as_ref()), &Only(None))),
        },
        // a stream of charts and new bench tests on standard input
        Some("inserts") => {
            let mut input = Vec::new();
            std::io::stdin().read_to_end(&mut input).unwrap();
            std::io::stdout().write_all(&inserts::answers(&input)).unwrap();
        }
        Some("bends") => print!("{}", bends(&file(2), &file(3))),
        Some("batch") => print!("{}", batch(&file(2), &String::from_utf8(file(3)).unwrap())),
        // every case folder of a suite: chart.txt with queries.txt, log.txt, batch.txt where they stand
        Some("suite") => {
            let (mut cases, mut anomalies) = (0, 0);
            let mut dirs: Vec<_> = std::fs::read_dir(&a[2]).unwrap().map(|d| d.unwrap().path()).collect();
            dirs.sort();
            for d in dirs.iter().filter(|d| d.is_dir()) {
                let c = std::fs::read(d.join("chart.txt")).unwrap_or_default();
                let (s, n) = answers(&c, &queries(&d.join("queries.txt")), &numbers(&d.join("rooms.txt")), &only);
                std::fs::write(d.join("answers.txt"), s).unwrap();
                if let (true, Ok(l)) = (only.has("log"), std::fs::read(d.join("log.txt"))) {
                    std::fs::write(d.join("bends.txt"), bends(&c, &l)).unwrap();
                }
                if let (true, Ok(l)) = (only.has("batch"), std::fs::read_to_string(d.join("batch.txt"))) {
                    std::fs::write(d.join("batch-answer.txt"), batch(&c, &l)).unwrap();
                }
                if n > 0 {
                    println!("anomalies in {}", d.display());
                }
                cases += 1;
                anomalies += n;
            }
            println!("{cases} cases, {anomalies} anomalies");
        }
        _ => {
            eprintln!("oracle check CHART.. | room CHART N | answers [--only KINDS] CHART QUERIES [ROOMS] | force CHART QUERIES | inserts | bends CHART LOG | batch CHART SPEC | suite [--only KINDS] DIR");
            std::process::exit(2);
        }
    }
}
