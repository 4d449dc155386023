//! Stand-in for the crate `num_traits`, for speed: only what the sources use, for f64. `Float::powf` is the identity (01,
//! "Gradient and value": flatness 1).
use std::ops::{Add, Div, Mul, Neg, Rem, Sub};

pub trait Zero: Sized + Add<Self, Output = Self> {
    fn zero() -> Self;
    fn is_zero(&self) -> bool;
}
pub trait One: Sized + Mul<Self, Output = Self> {
    fn one() -> Self;
}
pub trait Num:
    PartialEq
    + Zero
    + One
    + Add<Output = Self>
    + Sub<Output = Self>
    + Mul<Output = Self>
    + Div<Output = Self>
    + Rem<Output = Self>
{
}
pub trait Signed: Sized + Num + Neg<Output = Self> {
    fn abs(&self) -> Self;
}
pub trait Float: Num + Copy + PartialOrd + Neg<Output = Self> {
    fn powf(self, n: Self) -> Self;
}
#[inline(always)]
pub fn zero<T: Zero>() -> T {
    T::zero()
}
#[inline(always)]
pub fn one<T: One>() -> T {
    T::one()
}

impl Zero for f64 {
    #[inline(always)]
    fn zero() -> f64 {
        0.0
    }
    #[inline(always)]
    fn is_zero(&self) -> bool {
        *self == 0.0
    }
}
impl One for f64 {
    #[inline(always)]
    fn one() -> f64 {
        1.0
    }
}
impl Num for f64 {}
impl Signed for f64 {
    #[inline(always)]
    fn abs(&self) -> f64 {
        f64::abs(*self)
    }
}
impl Float for f64 {
    #[inline(always)]
    fn powf(self, _: f64) -> f64 {
        self
    }
}
