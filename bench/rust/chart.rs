//! 01's chart text and its refusals 3 to 11 in plain Rust: one pass over the bytes, no allocation but the three tables. And CR 1's writer.
use std::io::Write;

pub struct Tables {
    pub vertices: Vec<[i64; 4]>, // x, y, value, out half-edge
    pub half: Vec<[usize; 4]>,   // origin, next, prev, face
    pub faces: Vec<usize>,       // adjacent half-edge
}

const GRID: i64 = 10_000;

/// One field of 8 columns.
#[inline(always)]
fn field(b: &[u8]) -> Result<i64, u64> {
    let b: &[u8; 8] = b.try_into().unwrap();
    let mut i = 0;
    while i < 8 && b[i] == b' ' {
        i += 1;
    }
    let minus = i < 8 && b[i] == b'-';
    if minus {
        i += 1;
    }
    if i == 8 || (b[i] == b'0' && (i < 7 || minus)) {
        return Err(5);
    }
    let mut n = 0i64;
    while i < 8 {
        let d = b[i].wrapping_sub(b'0');
        if d > 9 {
            return Err(5);
        }
        n = n * 10 + d as i64;
        i += 1;
    }
    Ok(if minus { -n } else { n })
}

/// N fields and LF at the front of the text, which is long enough.
#[inline(always)]
fn line<const N: usize>(b: &[u8]) -> Result<[i64; N], u64> {
    let mut row = [0; N];
    for (j, cell) in row.iter_mut().enumerate() {
        *cell = field(&b[8 * j..8 * j + 8])?;
    }
    if b[8 * N] != 10 {
        return Err(5);
    }
    Ok(row)
}

fn cross(a: [i64; 4], b: [i64; 4], q: [i64; 4]) -> i64 {
    (b[0] - a[0]) * (q[1] - a[1]) - (b[1] - a[1]) * (q[0] - a[0])
}

fn circle(a: [i64; 4], b: [i64; 4], c: [i64; 4], q: [i64; 4]) -> i64 {
    let (ax, ay) = (a[0] - q[0], a[1] - q[1]);
    let (bx, by) = (b[0] - q[0], b[1] - q[1]);
    let (cx, cy) = (c[0] - q[0], c[1] - q[1]);
    let (az, bz, cz) = (ax * ax + ay * ay, bx * bx + by * by, cx * cx + cy * cy);
    ax * (by * cz - bz * cy) - ay * (bx * cz - bz * cx) + az * (bx * cy - by * cx)
}

/// 4.
fn bad_counts(v: i64, h: i64, f: i64) -> bool {
    !(3..=128).contains(&v) || !(6..=756).contains(&h) || h % 2 != 0 || !(2..=252).contains(&f)
}

/// The tables, or 3, 5 or 4.
fn parse(b: &[u8]) -> Result<(Vec<[i64; 4]>, Vec<[i64; 4]>, Vec<i64>), u64> {
    if b.len() < 25 {
        return Err(3);
    }
    let [v, h, f] = line::<3>(b)?;
    if bad_counts(v, h, f) {
        return Err(4);
    }
    let (nv, nh, nf) = (v as usize, h as usize, f as usize);
    if b.len() != 25 + 33 * nv + 33 * nh + 9 * nf {
        return Err(3);
    }
    let (vs, rest) = b[25..].split_at(33 * nv);
    let (hs, fs) = rest.split_at(33 * nh);
    let vertices = vs.chunks_exact(33).map(line::<4>).collect::<Result<Vec<_>, _>>()?;
    let half = hs.chunks_exact(33).map(line::<4>).collect::<Result<Vec<_>, _>>()?;
    let faces = fs.chunks_exact(9).map(|l| line::<1>(l).map(|r| r[0])).collect::<Result<Vec<_>, _>>()?;
    Ok((vertices, half, faces))
}

/// 7.
fn links_broken(t: &Tables) -> bool {
    let (half, faces) = (&t.half, &t.faces);
    let mut left = [false; 128];
    for (i, &[origin, next, prev, face]) in half.iter().enumerate() {
        let n = half[next];
        let end = half[i ^ 1][0];
        if n[0] != end || origin == end || n[2] != i || half[prev][1] != i || n[3] != face {
            return true;
        }
        if face == 0 {
            if left[origin] {
                return true;
            }
            left[origin] = true;
        } else {
            let a = faces[face];
            if half[n[1]][1] != i || !(i == a || i == half[a][1] || i == half[a][2]) {
                return true;
            }
        }
    }
    t.vertices.iter().enumerate().any(|(i, r)| half[r[3] as usize][0] != i)
        || faces.iter().enumerate().any(|(i, &a)| half[a][3] != i)
}

/// The tables of an accepted chart, or its refusal.
pub fn read(b: &[u8]) -> Result<Tables, u64> {
    let (vertices, h, f) = parse(b)?;
    check(vertices, &h, &f)
}

/// The text of three tables of numbers into the lent bytes, by Rust's own formatting; its length, or the refusal.
pub fn write(v: &[i64], h: &[i64], f: &[i64], lent: &mut [u8]) -> Result<usize, u64> {
    if v.len() % 4 != 0 || h.len() % 4 != 0 {
        return Err(2);
    }
    let (nv, nh, nf) = (v.len() / 4, h.len() / 4, f.len());
    if bad_counts(nv as i64, nh as i64, nf as i64) {
        return Err(4);
    }
    let rows = |t: &[i64]| t.chunks_exact(4).map(|r| [r[0], r[1], r[2], r[3]]).collect::<Vec<_>>();
    check(rows(v), &rows(h), f)?;
    put(v, h, f, lent)
}

/// The same of tables that are known to pass: the text's length, or 18.
pub fn put(v: &[i64], h: &[i64], f: &[i64], lent: &mut [u8]) -> Result<usize, u64> {
    let (nv, nh, nf) = (v.len() / 4, h.len() / 4, f.len());
    let length = 25 + 33 * nv + 33 * nh + 9 * nf;
    if lent.len() < length {
        return Err(18);
    }
    let mut text = lent;
    writeln!(text, "{nv:>8}{nh:>8}{nf:>8}").unwrap();
    for r in v.chunks_exact(4).chain(h.chunks_exact(4)) {
        writeln!(text, "{:>8}{:>8}{:>8}{:>8}", r[0], r[1], r[2], r[3]).unwrap();
    }
    for n in f {
        writeln!(text, "{n:>8}").unwrap();
    }
    Ok(length)
}

/// The tables, or 6 to 11.
fn check(vertices: Vec<[i64; 4]>, h: &[[i64; 4]], f: &[i64]) -> Result<Tables, u64> {
    let (nv, nh, nf) = (vertices.len() as u64, h.len() as u64, f.len() as u64);
    let below = |n: i64, count: u64| (n as u64) < count; // a negative one is huge
    let grid = |n: i64| (-GRID..=GRID).contains(&n);
    if !vertices.iter().all(|r| grid(r[0]) && grid(r[1]) && (0..=1_000_000).contains(&r[2]) && below(r[3], nh))
        || !h.iter().all(|r| below(r[0], nv) && below(r[1], nh) && below(r[2], nh) && below(r[3], nf))
        || !f.iter().all(|&a| below(a, nh))
    {
        return Err(6);
    }
    let half = h.iter().map(|r| r.map(|n| n as usize)).collect();
    let faces = f.iter().map(|&n| n as usize).collect();
    let t = Tables { vertices, half, faces };
    if links_broken(&t) {
        return Err(7);
    }
    let (v, half) = (&t.vertices, &t.half);
    for (i, p) in v.iter().enumerate() {
        if v[..i].iter().any(|q| p[0] == q[0] && p[1] == q[1]) {
            return Err(8);
        }
    }
    let corners = |h: usize| [half[h][2], h, half[h][1]].map(|e| v[half[e][0]]);
    for &h in &t.faces[1..] {
        let [a, b, c] = corners(h);
        if cross(a, b, c) <= 0 {
            return Err(9);
        }
    }
    for (i, e) in half.iter().enumerate() {
        if e[3] == 0 {
            let (a, b) = (v[e[0]], v[half[i ^ 1][0]]);
            if v.iter().any(|&q| cross(a, b, q) > 0) {
                return Err(10);
            }
        }
    }
    for &h in &t.faces[1..] {
        let [a, b, c] = corners(h);
        if v.iter().any(|&q| circle(a, b, c, q) > 0) {
            return Err(11);
        }
    }
    Ok(t)
}
