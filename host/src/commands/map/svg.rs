//! Shapes and texts as SVG.

use std::fmt::Write as _;

use super::classes::{ByClass, Class};

/// Text between tags or quotes.
pub fn escaped(text: &str) -> String {
    let mut to = String::with_capacity(text.len());
    for c in text.chars() {
        match c {
            '&' => to.push_str("&amp;"),
            '<' => to.push_str("&lt;"),
            '>' => to.push_str("&gt;"),
            '"' => to.push_str("&quot;"),
            _ => to.push(c),
        }
    }
    to
}

/// Puts a text of a style.
pub fn put_text(to: &mut String, style: &str, (x, y): (u32, u32), text: &str) {
    let text = escaped(text);
    let _ = writeln!(
        to,
        "<text class=\"{style}\" x=\"{x}\" y=\"{y}\">{text}</text>"
    );
}

/// A rectangle: where it begins, and its sides.
#[derive(Clone, Copy, PartialEq, Eq)]
pub struct Rectangle {
    pub x: u32,
    pub y: u32,
    pub width: u32,
    pub height: u32,
}

impl Rectangle {
    /// The rectangle with another one right behind it, if they are one.
    fn with(self, other: Rectangle) -> Option<Rectangle> {
        let is_behind = self.x + self.width == other.x;
        let is_beside = (self.y, self.height) == (other.y, other.height);
        (is_behind && is_beside).then_some(Rectangle {
            width: self.width + other.width,
            ..self
        })
    }

    fn put(self, to: &mut String) {
        let Rectangle {
            x,
            y,
            width,
            height,
        } = self;
        let _ = write!(to, "M{x} {y}h{width}v{height}h-{width}z");
    }
}

/// Shapes of each class: those side by side as one.
#[derive(Default)]
pub struct Shapes(ByClass<Shape>);

#[derive(Clone, Default)]
struct Shape {
    path: String,
    last: Option<Rectangle>,
}

impl Shapes {
    pub fn add(&mut self, class: Class, rectangle: Rectangle) {
        let shape = self.0.of_mut(class);
        match shape.last.and_then(|last| last.with(rectangle)) {
            Some(both) => shape.last = Some(both),
            None => {
                let before = shape.last.replace(rectangle);
                before
                    .into_iter()
                    .for_each(|last| last.put(&mut shape.path));
            }
        }
    }

    /// Puts all shapes of a class.
    pub fn put(&mut self, class: Class, to: &mut String) {
        let shape = self.0.of_mut(class);
        let last = shape.last.take();
        last.into_iter().for_each(|last| last.put(&mut shape.path));
        if !shape.path.is_empty() {
            let (style, path) = (class.style(), &shape.path);
            let _ = writeln!(to, "<path class=\"{style}\" d=\"{path}\"/>");
        }
    }
}

/// Puts what is said of a place when the pointer is there.
pub fn put_title(to: &mut String, place: Rectangle, title: &str) {
    let Rectangle {
        x,
        y,
        width,
        height,
    } = place;
    let title = escaped(title);
    let _ = writeln!(
        to,
        "<rect x=\"{x}\" y=\"{y}\" width=\"{width}\" height=\"{height}\"><title>{title}</title></rect>"
    );
}
