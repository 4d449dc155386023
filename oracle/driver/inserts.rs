//! 02, CR 13: new bench tests, by the sources' own operations. Written from 02, not from the port and not from the Python one; the order of flips,
//! which 02 leaves free, is that of docs/DECISIONS.md, so that texts can be compared byte by byte.
use crate::chart::{self, Chart};
use crate::{dcel, on_grid, triangulation, Test};
use spade::oracle_loader::{insert_vertex, tables_of_dcel, Site};
use spade::{Point2, PositionInTriangulation, Triangulation};

/// The chart with the new vertex, or 13, 25 or 26.
fn inserted(c: &Chart, x: i64, y: i64, value: i64, stack: bool) -> Result<Chart, u32> {
    if !on_grid(x, y) || !(0..=1_000_000).contains(&value) {
        return Err(13);
    }
    if c.vertices.len() == 128 {
        return Err(25);
    }
    let position = Point2::new(x as f64, y as f64);
    robust::log_start(u64::MAX); // no search is counted here
    let tri = triangulation(c);
    let site = match tri.locate(position) {
        PositionInTriangulation::OnFace(f) => Site::Face(f.index()),
        PositionInTriangulation::OnEdge(e) if !tri.directed_edge(e).is_part_of_convex_hull() => Site::Edge(e.index()),
        _ => return Err(26),
    };
    let mut dcel = dcel(c);
    insert_vertex(&mut dcel, Test { position, value: value as f64 }, site, stack);
    dcel.sanity_check();
    let (outs, half, faces) = tables_of_dcel(&dcel);
    let mut vertices = c.vertices.clone();
    vertices.push([x, y, value, 0]);
    for (row, out) in vertices.iter_mut().zip(outs) {
        row[3] = out as i64;
    }
    Ok(Chart { vertices, half, faces })
}

/// The triangles by vertex numbers, each from its least corner, in order.
fn triangles(c: &Chart) -> Vec<[usize; 3]> {
    let mut all: Vec<_> = c.faces[1..]
        .iter()
        .map(|&a| {
            let mut t = [a, c.half[a][1], c.half[a][2]].map(|h| c.half[h][0]);
            while t[0] != *t.iter().min().unwrap() {
                t.rotate_left(1);
            }
            t
        })
        .collect();
    all.sort();
    all
}

/// A call, and what its buffer holds then.
fn insert(text: &[u8], x: i64, y: i64, value: i64, lent: &mut [u8]) -> Result<usize, u32> {
    let c = chart::read(text, None)?;
    let d = inserted(&c, x, y, value, false)?;
    let other = inserted(&c, x, y, value, true).unwrap();
    assert!(triangles(&d) == triangles(&other) || chart::four_on_a_circle(&d), "the order of flips made another chart");
    let flat = |t: &[[usize; 4]]| t.iter().flatten().map(|&n| n as i64).collect::<Vec<_>>();
    let vertices: Vec<i64> = d.vertices.iter().flatten().copied().collect();
    let faces: Vec<i64> = d.faces.iter().map(|&n| n as i64).collect();
    let done = chart::write(&vertices, &flat(&d.half), &faces, lent);
    assert!(matches!(done, Ok(_) | Err(18)), "the outcome is refused: {done:?}");
    done
}

/// The stream of tests/inserts.c: see oracle/README.md.
pub fn answers(mut input: &[u8]) -> Vec<u8> {
    let (mut chart, mut out) = (Vec::new(), Vec::new());
    while !input.is_empty() {
        let end = input.iter().position(|&b| b == 10).expect("a line without an end");
        let line = std::str::from_utf8(&input[..end]).unwrap();
        input = &input[end + 1..];
        let word = line.split(' ').next().unwrap();
        let n: Vec<i64> = line.split(' ').skip(1).map(|w| w.parse().expect("a number")).collect();
        match (word, &n[..]) {
            ("chart", &[size]) => {
                chart = input[..size as usize].to_vec();
                input = &input[size as usize..];
            }
            ("insert" | "grow", &[x, y, value, room]) => {
                let mut lent = vec![0xaa; room as usize];
                let done = insert(&chart, x, y, value, &mut lent);
                match done {
                    Err(n) => out.extend(format!("refused {n}\n").bytes()),
                    Ok(m) => {
                        out.extend(format!("text {m}\n").bytes());
                        out.extend(&lent[..m]);
                        if word == "grow" {
                            chart = lent[..m].to_vec();
                        }
                    }
                }
            }
            _ => panic!("not understood: {line}"),
        }
    }
    out
}
