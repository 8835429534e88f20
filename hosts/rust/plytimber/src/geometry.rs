//! Points, sizes and rectangles, named as etagere names those that it takes from euclid.

/// A corner of a rectangle.
#[derive(Copy, Clone, Debug, Default, PartialEq, Eq, Hash)]
pub struct Point {
    pub x: i32,
    pub y: i32,
}

/// The sides of a rectangle.
#[derive(Copy, Clone, Debug, Default, PartialEq, Eq, Hash)]
pub struct Size {
    pub width: i32,
    pub height: i32,
}

/// From `min` up to `max`, whose row and column of pixels are not part of it.
#[derive(Copy, Clone, Debug, Default, PartialEq, Eq, Hash)]
pub struct Rectangle {
    pub min: Point,
    pub max: Point,
}

pub const fn point2(x: i32, y: i32) -> Point {
    Point { x, y }
}

pub const fn size2(width: i32, height: i32) -> Size {
    Size { width, height }
}

impl Point {
    pub const fn new(x: i32, y: i32) -> Self {
        point2(x, y)
    }
}

impl Size {
    pub const fn new(width: i32, height: i32) -> Self {
        size2(width, height)
    }

    pub const fn area(self) -> i32 {
        self.width * self.height
    }

    pub const fn is_empty(self) -> bool {
        self.width <= 0 || self.height <= 0
    }
}

impl Rectangle {
    pub const fn new(min: Point, max: Point) -> Self {
        Rectangle { min, max }
    }

    pub const fn is_empty(&self) -> bool {
        self.max.x <= self.min.x || self.max.y <= self.min.y
    }

    pub const fn width(&self) -> i32 {
        self.max.x - self.min.x
    }

    pub const fn height(&self) -> i32 {
        self.max.y - self.min.y
    }

    pub const fn size(&self) -> Size {
        size2(self.width(), self.height())
    }

    pub const fn area(&self) -> i32 {
        self.size().area()
    }

    /// Do the two share a pixel?
    pub const fn intersects(&self, other: &Self) -> bool {
        self.min.x < other.max.x && other.min.x < self.max.x && self.min.y < other.max.y && other.min.y < self.max.y
    }
}
