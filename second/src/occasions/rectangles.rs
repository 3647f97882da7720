//! Rectangles at the edges of what is taken.

use crate::line::Command;
use crate::occasions::named::Named;
use crate::rectangle::Rectangle;
use crate::tile::side_of;

pub const SHAPES: [Named<Shape>; 8] = [
    ("a rectangle across the seam", |shape| {
        shape.is_taken() && shape.crosses_seam()
    }),
    ("a rectangle as wide as the level", |shape| {
        shape.is_taken() && shape.width == shape.side
    }),
    ("a rectangle one wider than the level", |shape| {
        shape.width == shape.side + 1
    }),
    ("a rectangle of 256 tiles", |shape| {
        shape.is_taken() && shape.tiles() == 256
    }),
    ("a rectangle of 257 tiles", |shape| {
        shape.fits_level() && shape.tiles() == 257
    }),
    ("a rectangle wider than 32 bits say", |shape| {
        shape.width > i64::from(i32::MAX)
    }),
    ("a rectangle at the first column", |shape| {
        shape.is_taken() && shape.west == i32::MIN
    }),
    ("a rectangle to the last column", |shape| {
        shape.is_taken() && shape.east == i32::MAX
    }),
];

/// A rectangle of a served level, with rows that are there.
pub struct Shape {
    side: i64,
    west: i32,
    east: i32,
    width: i64,
    height: i64,
}

impl Shape {
    fn of(rectangle: Rectangle) -> Option<Shape> {
        let side = i64::from(side_of(u32::from(rectangle.zoom))?);
        let (top, bottom) = (i64::from(rectangle.top), i64::from(rectangle.bottom));
        if !(0..side).contains(&top) || !(0..side).contains(&bottom) {
            return None;
        }
        let (north, south) = match rectangle.edition {
            1 => (bottom, top),
            2 => (top, bottom),
            _ => return None,
        };
        Some(Shape {
            side,
            west: rectangle.west,
            east: rectangle.east,
            width: i64::from(rectangle.east) - i64::from(rectangle.west) + 1,
            height: south - north + 1,
        })
    }

    fn tiles(&self) -> i64 {
        self.width * self.height
    }

    fn fits_level(&self) -> bool {
        (1..=self.side).contains(&self.width) && self.height >= 1
    }

    fn is_taken(&self) -> bool {
        self.fits_level() && self.tiles() <= 256
    }

    fn crosses_seam(&self) -> bool {
        i64::from(self.west).rem_euclid(self.side) + self.width > self.side
    }
}

pub fn shape(command: Command) -> Option<Shape> {
    if let Command::Sweep(_, _, rectangle) = command {
        return Shape::of(rectangle);
    }
    None
}
