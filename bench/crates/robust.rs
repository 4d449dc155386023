//! Stand-in for the crate `robust`, for speed: 01's two determinants, exact on its grid, and nothing else.

#[derive(Debug, Clone, Copy, PartialEq)]
pub struct Coord<T: Into<f64>> {
    pub x: T,
    pub y: T,
}

/// Positive when pc is left of pa -> pb. Each product is below 2^53: f64 is exact here, and needs no conversion.
#[inline(always)]
pub fn orient2d<T: Into<f64>>(pa: Coord<T>, pb: Coord<T>, pc: Coord<T>) -> f64 {
    let (ax, ay): (f64, f64) = (pa.x.into(), pa.y.into());
    let (bx, by): (f64, f64) = (pb.x.into(), pb.y.into());
    let (qx, qy): (f64, f64) = (pc.x.into(), pc.y.into());
    (bx - ax) * (qy - ay) - (by - ay) * (qx - ax)
}

/// Positive when pd is strictly inside the circle through the left-turning pa, pb, pc; in i64, which the determinant fits.
#[inline(always)]
pub fn incircle<T: Into<f64>>(pa: Coord<T>, pb: Coord<T>, pc: Coord<T>, pd: Coord<T>) -> f64 {
    let whole = |v: T| -> i64 {
        let f: f64 = v.into();
        // a coordinate of the grid: the cast is the machine's own instruction
        unsafe { f.to_int_unchecked() }
    };
    let (qx, qy) = (whole(pd.x), whole(pd.y));
    let (ax, ay) = (whole(pa.x) - qx, whole(pa.y) - qy);
    let (bx, by) = (whole(pb.x) - qx, whole(pb.y) - qy);
    let (cx, cy) = (whole(pc.x) - qx, whole(pc.y) - qy);
    let az = ax * ax + ay * ay;
    let bz = bx * bx + by * by;
    let cz = cx * cx + cy * cy;
    let d = ax * (by * cz - bz * cy) - ay * (bx * cz - bz * cx) + az * (bx * cy - by * cx);
    d as f64
}
