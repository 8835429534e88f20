//! Stands in for the crate euclid: only what etagere's allocator.rs and lib.rs use, for plain numbers.
//!
//! - `default::{Point2D, Size2D, Box2D}` with their public fields, and the derives the source needs
//! - `point2`, `size2` (constant functions: `DEFAULT_OPTIONS` is a constant)
//! - `Size2D::is_empty`, `Size2D::area`, `Box2D::size`, `Box2D::area`
//!
//! euclid's types carry a unit besides the number type. Its `default` module fixes that unit, so
//! through `default` it can't be seen, and it is left out here.

pub mod default {
    use std::ops::{Mul, Sub};

    #[derive(Copy, Clone, Debug, PartialEq, Eq, Hash)]
    pub struct Point2D<T> {
        pub x: T,
        pub y: T,
    }

    #[derive(Copy, Clone, Debug, PartialEq, Eq, Hash)]
    pub struct Size2D<T> {
        pub width: T,
        pub height: T,
    }

    /// From `min` (inside) to `max` (outside).
    #[derive(Copy, Clone, Debug, PartialEq, Eq, Hash)]
    pub struct Box2D<T> {
        pub min: Point2D<T>,
        pub max: Point2D<T>,
    }

    impl<T: Copy + Default + PartialOrd> Size2D<T> {
        /// Zero or negative in either side; said in euclid's way, with "not above zero".
        pub fn is_empty(self) -> bool {
            let zero = T::default();
            !(self.width > zero && self.height > zero)
        }
    }

    impl<T: Copy + Mul<Output = T>> Size2D<T> {
        pub fn area(self) -> T {
            self.width * self.height
        }
    }

    impl<T: Copy + Sub<Output = T>> Box2D<T> {
        pub fn size(&self) -> Size2D<T> {
            Size2D { width: self.max.x - self.min.x, height: self.max.y - self.min.y }
        }
    }

    impl<T: Copy + Sub<Output = T> + Mul<Output = T>> Box2D<T> {
        pub fn area(&self) -> T {
            self.size().area()
        }
    }
}

pub const fn point2<T>(x: T, y: T) -> default::Point2D<T> {
    default::Point2D { x, y }
}

pub const fn size2<T>(width: T, height: T) -> default::Size2D<T> {
    default::Size2D { width, height }
}
