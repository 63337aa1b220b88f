//! The camera over the pitch. Places are in metres: x to the right of the middle
//! stump, y above the ground, z away from the camera.

use crate::canvas::Corner;

/// The camera looks level along the pitch, from this high.
const HEIGHT: f64 = 2.6;

/// Pixels that a metre has at a distance of a metre.
const FOCAL: f64 = 2300.0;

/// The column of the middle stump and the row of the horizon, above the picture.
const MIDDLE: f64 = 320.0;
const HORIZON: f64 = -85.0;

/// Nothing that is drawn is nearer.
const NEAREST: f64 = 6.0;

pub type Place = (f64, f64, f64);

/// Where a place is seen. One over the distance changes evenly over a plane's
/// picture, and so does this depth: a plane in space is a plane on the screen.
pub fn seen((x, y, z): Place) -> Corner {
    let scale = scale(z);
    Corner { x: MIDDLE + x * scale, y: HORIZON + (HEIGHT - y) * scale, depth: 500.0 + 32000.0 * (1.0 - NEAREST / z) }
}

/// The same spot of the picture, in front of what is less than so many metres
/// nearer.
pub fn seen_before((x, y, z): Place, by: f64) -> Corner {
    Corner { depth: seen((x, y, z - by)).depth, ..seen((x, y, z)) }
}

/// Pixels that a metre has at this distance.
pub fn scale(z: f64) -> f64 {
    FOCAL / z
}

#[cfg(test)]
mod tests {
    use super::*;

    #[test]
    fn nearer_is_larger_and_in_front() {
        let (near, far) = (seen((1.0, 0.0, 10.0)), seen((1.0, 0.0, 20.0)));
        assert!(near.depth < far.depth && near.y > far.y && near.x > far.x);
        assert_eq!(scale(10.0), 2.0 * scale(20.0));
        let before = seen_before((1.0, 0.0, 20.0), 1.0);
        assert!(near.depth < before.depth && before.depth < far.depth && (before.x, before.y) == (far.x, far.y));
    }

    /// Halfway between the pictures of a line's ends, the depth is halfway too.
    #[test]
    fn depth_is_even_on_the_screen() {
        let (from, to) = ((0.0, 0.0, 12.0), (3.0, 1.0, 24.0));
        let (a, b) = (seen(from), seen(to));
        // What is seen there is a third of the way along the line: the nearer half is the larger one.
        let middle = seen((1.0, 1.0 / 3.0, 16.0));
        assert!((middle.x - (a.x + b.x) / 2.0).abs() < 1e-6 && (middle.y - (a.y + b.y) / 2.0).abs() < 1e-6);
        assert!((middle.depth - (a.depth + b.depth) / 2.0).abs() < 1e-6);
    }
}
