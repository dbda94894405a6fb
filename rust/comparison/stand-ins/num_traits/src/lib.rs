//! The traits of num_traits that the listed Rust names, for the types that it is used with.
use std::ops::{Add, Div, Mul, Neg, Sub};

pub trait AsPrimitive<T: Copy + 'static>: Copy + 'static {
    fn as_(self) -> T;
}

pub trait PrimInt: Copy + Eq + Ord + 'static {
    fn max_value() -> Self;
}

pub trait Float:
    Copy
    + PartialOrd
    + Add<Output = Self>
    + Sub<Output = Self>
    + Mul<Output = Self>
    + Div<Output = Self>
    + Neg<Output = Self>
    + 'static
{
    fn zero() -> Self;
    fn one() -> Self;
}

macro_rules! as_primitive {
    ($($from:ty => $to:ty),*) => {$(
        impl AsPrimitive<$to> for $from {
            fn as_(self) -> $to {
                self as $to
            }
        }
    )*};
}

as_primitive!(u32 => usize, usize => u32, usize => usize, usize => f32, usize => f64);

impl PrimInt for u32 {
    fn max_value() -> Self {
        u32::MAX
    }
}

impl PrimInt for usize {
    fn max_value() -> Self {
        usize::MAX
    }
}

macro_rules! float {
    ($($t:ty),*) => {$(
        impl Float for $t {
            fn zero() -> Self {
                0.0
            }
            fn one() -> Self {
                1.0
            }
        }
    )*};
}

float!(f32, f64);
