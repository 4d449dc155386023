//! The same calls over the Rust bodies of Spade: the chart check, a batch, and a new bench test.
use crate::chart::{self, Tables};
use spade::delaunay_core::Dcel;
use spade::oracle_loader::{self, Site};
use spade::{DelaunayTriangulation, FloatTriangulation, HasPosition, LastUsedVertexHintGenerator, Point2, PositionInTriangulation, Triangulation};

struct Test {
    position: Point2<f64>,
    value: f64,
}
impl HasPosition for Test {
    type Scalar = f64;
    #[inline(always)]
    fn position(&self) -> Point2<f64> {
        self.position
    }
}

fn dcel(t: &Tables) -> Dcel<Test> {
    let vertices = t.vertices.iter().map(|v| {
        let position = Point2::new(v[0] as f64, v[1] as f64);
        (Test { position, value: v[2] as f64 }, v[3] as usize)
    });
    oracle_loader::dcel_of_tables(vertices.collect(), &t.half, &t.faces)
}

fn triangulation(t: &Tables) -> DelaunayTriangulation<Test> {
    DelaunayTriangulation::from_parts(dcel(t), LastUsedVertexHintGenerator::default(), 0)
}

/// A new vertex by Spade's operations: the edges to be flipped on a stack, or (`scan`) in the port's order, so that the texts can be compared.
pub fn insert(text: &[u8], (x, y): (i64, i64), value: i64, scan: bool, lent: &mut [u8]) -> Result<usize, u64> {
    let mut t = chart::read(text)?;
    if x.unsigned_abs().max(y.unsigned_abs()) > 10_000 || !(0..=1_000_000).contains(&value) {
        return Err(13);
    }
    if t.vertices.len() == 128 {
        return Err(25);
    }
    let position = Point2::new(x as f64, y as f64);
    let tri = triangulation(&t);
    let site = match tri.locate(position) {
        PositionInTriangulation::OnFace(f) => Site::Face(f.index()),
        PositionInTriangulation::OnEdge(e) if !tri.directed_edge(e).is_part_of_convex_hull() => Site::Edge(e.index()),
        _ => return Err(26),
    };
    let mut dcel = tri.into_parts().0;
    oracle_loader::insert_vertex(&mut dcel, Test { position, value: value as f64 }, site, !scan);
    let (outs, half, faces) = oracle_loader::tables_of_dcel(&dcel);
    t.vertices.push([x, y, value, 0]);
    let vertices: Vec<i64> = t.vertices.iter().zip(outs).flat_map(|(v, out)| [v[0], v[1], v[2], out as i64]).collect();
    let half: Vec<i64> = half.iter().flatten().map(|&n| n as i64).collect();
    let faces: Vec<i64> = faces.iter().map(|&n| n as i64).collect();
    chart::put(&vertices, &half, &faces, lent)
}

const FULL: u64 = 1_000_000_000_000;

/// 01's charge.
fn charge(v: f64) -> Result<u64, u64> {
    if !(v >= -0.5 && v < 1_000_000.5) {
        return Err(16);
    }
    if v < 0.0 {
        return Ok(0);
    }
    let n = v as u64;
    Ok(n + u64::from(v - n as f64 >= 0.5)) // exact for v >= 0
}

/// Refusal 1 of a book: sections, 16 wears, 16 counts, retired wear.
fn bad_book(b: &[u64; 34]) -> bool {
    let s = b[0];
    let wear = b[1..17].iter().try_fold(b[33], |sum, &w| sum.checked_add(w));
    !(1..=16).contains(&s)
        || !matches!(wear, Some(w) if w <= FULL)
        || b[17..33].iter().any(|&n| n > FULL)
        || (s as usize..16).any(|i| b[1 + i] != 0 || b[17 + i] != 0)
}

pub fn check(text: &[u8]) -> u64 {
    chart::read(text).err().unwrap_or(0)
}

pub fn batch(book: &mut [u64; 34], text: &[u8], entries: &[i64], answers: &mut [u64]) -> u64 {
    if bad_book(book) {
        return 1;
    }
    if entries.len() % 5 != 0 || answers.len() < entries.len() / 5 {
        return 2;
    }
    let tables = match chart::read(text) {
        Ok(t) => t,
        Err(n) => return n,
    };
    let tri = triangulation(&tables);
    let barycentric = tri.barycentric();
    let natural = tri.natural_neighbor();
    let mut gradients = None; // of all vertices, at the first bend that wants them
    let mut total: u64 = book[1..17].iter().sum::<u64>() + book[33];
    for (e, answer) in entries.chunks_exact(5).zip(answers) {
        let [kind, section, x, y, method] = [e[0], e[1], e[2], e[3], e[4]];
        let mut work = || -> Result<u64, u64> {
            if section as u64 >= book[0] {
                return Err(12);
            }
            let s = section as usize;
            if kind == 2 {
                if x != 0 || y != 0 || method != 0 {
                    return Err(12);
                }
                book[33] += book[1 + s];
                book[1 + s] = 0;
                book[17 + s] = 0;
                return Ok(0);
            }
            if kind != 1 || !(1..=3).contains(&method) {
                return Err(12);
            }
            if !(-10_000..=10_000).contains(&x) || !(-10_000..=10_000).contains(&y) {
                return Err(13);
            }
            let p = Point2::new(x as f64, y as f64);
            let value = match method {
                1 => barycentric.interpolate(|v| v.data().value, p),
                2 => natural.interpolate(|v| v.data().value, p),
                _ => {
                    let g = gradients.get_or_insert_with(|| natural.estimate_gradients(|v| v.data().value));
                    natural.interpolate_gradient(|v| v.data().value, &*g, 1.0, p)
                }
            };
            let n = charge(value.ok_or(14u64)?)?; // outside; every other load on an accepted chart has a value
            if total + n > FULL || book[17 + s] == FULL {
                return Err(17);
            }
            total += n;
            book[1 + s] += n;
            book[17 + s] += 1;
            Ok(n)
        };
        *answer = work().unwrap_or_else(|n| 2_000_000 + n);
    }
    0
}
