//! The pitch as a camera over the bowler's end sees it, and the ball's track.

use crate::camera::{scale, seen, seen_before, Place};
use crate::canvas::{across, between, Canvas, Colour, Corner, Point};
use crate::desk::{FRAME, FRAMES, WIDTH, WORDS};
use crate::text::{self, Type};
use std::cmp::Ordering;

mod colour {
    use crate::canvas::Colour;
    pub const WHITE: Colour = (31, 63, 31);
    pub const WORDS: Colour = (2, 5, 4);
    /// A ball where the light falls on it, and at its rim.
    pub const BALL: [Colour; 2] = [(31, 32, 15), (22, 5, 2)];
    pub const SHOWN_BALL: [Colour; 2] = [(31, 46, 21), (22, 5, 2)];
    pub const LATER_BALL: [Colour; 2] = [(27, 54, 27), (14, 29, 14)];
    /// The track at its first moment and at the shown frame, and from there to its last moment.
    pub const TRACK: [Colour; 2] = [(29, 26, 12), (31, 46, 23)];
    pub const LATER: [Colour; 2] = [(31, 63, 31), (24, 49, 24)];
    /// The track's shadow where the ball is on the ground, and where it is a metre above it or more.
    pub const SHADOW: [Colour; 2] = [(15, 30, 11), (23, 46, 17)];
    /// A stump at its left side, where the light falls on it, and at its right side.
    pub const STUMP: [Colour; 3] = [(27, 46, 16), (31, 60, 24), (16, 24, 7)];
}

pub fn draw(canvas: &mut Canvas) {
    balls(canvas);
    track(canvas);
    stumps(canvas);
    creases(canvas);
    ground(canvas);
}

/// The stumps' distance, and the ball's radius, in metres.
const STUMPS: f64 = 24.0;
const RADIUS: f64 = 0.036;

/// The moment, in frames, at which the ball meets the ground; it leaves the hand
/// with frame 1.
const BOUNCE: f64 = 19.2;

/// Where the ball is at a moment, in frames.
fn ball(moment: f64) -> Place {
    const GRAVITY: f64 = 9.8;
    let z = STUMPS + 0.5 + 0.6 * (moment - 31.0);
    let seconds = (moment - BOUNCE) / 60.0;
    let (aside, up) = if seconds < 0.0 { (1.6, -8.2) } else { (1.5, 3.8) };
    (-0.1 + aside * seconds, RADIUS + up * seconds - GRAVITY / 2.0 * seconds * seconds, z)
}

/// Where the light falls on a ball, in radii from its middle.
const LIGHT: Point = (-0.3, -0.35);

/// The ball in every frame of its way: small, and whole in the frame that is
/// shown.
fn balls(canvas: &mut Canvas) {
    for frame in 1..FRAMES {
        let place = ball(f64::from(frame));
        let small = 0.55 * RADIUS * scale(place.2);
        let mut draw = |colours| canvas.ball(seen_before(place, 0.2), (small, small), LIGHT, colours);
        match frame.cmp(&FRAME) {
            Ordering::Less => draw(colour::BALL),
            Ordering::Equal => shown(canvas, place),
            Ordering::Greater => draw(colour::LATER_BALL),
        }
    }
}

/// The ball with a white rim, larger than it is and in front of its own track, and
/// the frame's number beside it.
fn shown(canvas: &mut Canvas, place: Place) {
    let (at, radius) = (seen_before(place, 1.1), 1.9 * RADIUS * scale(place.2));
    canvas.ball(at, (radius, radius), LIGHT, colour::SHOWN_BALL);
    canvas.disc(seen_before(place, 1.0), (radius + 1.5, radius + 1.5), colour::WHITE);
    let number = FRAME.to_string();
    let left = (at.x - radius - 6.0 - text::width(&number)).round();
    let set = Type { depth: WORDS, colour: colour::WORDS, block: 1.0 };
    text::write(canvas, &number, (left, (at.y - 3.0).round()), set);
}

/// The track from the hand to the ground and on: up to the shown frame brighter
/// the later it is, and from there fading.
fn track(canvas: &mut Canvas) {
    let (now, last) = (f64::from(FRAME), f64::from(FRAMES - 1));
    let [first, latest] = colour::TRACK;
    let [next, end] = colour::LATER;
    let so_far = |moment: f64| between(first, latest, (moment - 1.0) / (now - 1.0));
    ribbon(canvas, 1.0, BOUNCE, so_far);
    ribbon(canvas, BOUNCE, now, so_far);
    ribbon(canvas, now, last, |moment: f64| between(next, end, (moment - now) / (last - now)));
}

/// A band along the ball's way, in the colour of each moment, and its shadow.
/// Neighbouring pieces have a side in common.
fn ribbon(canvas: &mut Canvas, from: f64, to: f64, colour: impl Fn(f64) -> Colour) {
    const PIECES: u32 = 40;
    let moment = |k: u32| from + (to - from) * f64::from(k) / f64::from(PIECES);
    let sides = |k: u32| -> (Corner, Corner) {
        // The way at an end is that of the piece at this end.
        let (before, after) = (seen(ball(moment(k.saturating_sub(1)))), seen(ball(moment((k + 1).min(PIECES)))));
        let at = seen(ball(moment(k)));
        let half = (0.3 * RADIUS * scale(ball(moment(k)).2)).max(0.75);
        let (x, y) = across((before.x, before.y), (after.x, after.y), half);
        (at.moved(x, y), at.moved(-x, -y))
    };
    for k in 0..PIECES {
        let ((a, d), (b, c)) = (sides(k), sides(k + 1));
        let (start, end) = (colour(moment(k)), colour(moment(k + 1)));
        canvas.quad([a, b, c, d], [start, end, end, start]);
        shadow(canvas, moment(k), moment(k + 1));
    }
}

/// The track's shadow on the pitch, fainter the higher the ball.
fn shadow(canvas: &mut Canvas, from: f64, to: f64) {
    let half = 0.3 * RADIUS;
    let ((x1, y1, z1), (x2, y2, z2)) = (ball(from), ball(to));
    let corners = [(x1 - half, z1), (x2 - half, z2), (x2 + half, z2), (x1 + half, z1)];
    let [dark, faint] = colour::SHADOW;
    let colours = [y1, y2, y2, y1].map(|height| between(dark, faint, height.min(1.0)));
    canvas.quad(corners.map(|(x, z)| seen((x, 0.015, z))), colours);
}

/// Three round stumps, lit from the left, and the bails on them.
fn stumps(canvas: &mut Canvas) {
    const TALL: f64 = 0.71;
    const THICK: f64 = 0.038;
    let upright = |canvas: &mut Canvas, (left, right): Point, (bottom, top): Point, [from, to]: [Colour; 2]| {
        let corners = [(left, top), (right, top), (right, bottom), (left, bottom)].map(|(x, y)| seen((x, y, STUMPS)));
        canvas.quad(corners, [from, to, to, from]);
    };
    let [wood, lit, grain] = colour::STUMP;
    for x in [-0.095, 0.0, 0.095] {
        let (left, light, right) = (x - THICK / 2.0, x - THICK / 6.0, x + THICK / 2.0);
        upright(canvas, (left, light), (0.0, TALL), [wood, lit]);
        upright(canvas, (light, right), (0.0, TALL), [lit, grain]);
    }
    upright(canvas, (-0.114, 0.114), (TALL, TALL + 0.03), [lit, wood]);
}

/// The bowling crease under the stumps, the popping crease before it, and the
/// two return creases. Lines across are drawn thicker than they are, or they
/// would be thinner than a row.
fn creases(canvas: &mut Canvas) {
    const ACROSS: f64 = 0.1;
    const ALONG: f64 = 0.02;
    let popping = STUMPS - 1.22;
    level(canvas, (-1.32, 1.32), (STUMPS - ACROSS, STUMPS + ACROSS), 0.02, colour::WHITE);
    level(canvas, (-1.83, 1.83), (popping - ACROSS, popping + ACROSS), 0.02, colour::WHITE);
    for x in [-1.32, 1.32] {
        level(canvas, (x - ALONG, x + ALONG), (popping, popping + 2.44), 0.02, colour::WHITE);
    }
}

/// A rectangle on the ground, or so little above it that it is in front of what
/// lies there.
fn level(canvas: &mut Canvas, (left, right): Point, (near, far): Point, above: f64, colour: Colour) {
    let corners = [(left, far), (right, far), (right, near), (left, near)].map(|(x, z)| seen((x, above, z)));
    canvas.quad(corners, [colour; 4]);
}

/// The pitch, and the field in stripes as it is mown, darker with the distance.
fn ground(canvas: &mut Canvas) {
    const NEAR: f64 = 12.0;
    const FAR: f64 = 100.0;
    const STRIPE: f64 = 2.4;
    let quad = |left: f64, right: f64, far: f64, above: f64| {
        // No vertex is further out than 1,023 pixels: outer stripes begin where they enter the picture.
        let near = NEAR.max(left.abs().max(right.abs()) * scale(1.0) / 650.0);
        [(left, far), (right, far), (right, near), (left, near)].map(|(x, z)| seen((x, above, z)))
    };
    let (top, bottom) = (seen((0.0, 0.0, FAR)).y, seen((0.0, 0.0, NEAR)).y);
    let pitch = quad(-1.525, 1.525, STUMPS + 1.6, 0.01);
    shaded(canvas, pitch, (pitch[0].y, (22, 43, 16)), (bottom, (25, 50, 19)));
    for k in -4..4 {
        let left = (2.0 * f64::from(k) + 0.5) * STRIPE;
        shaded(canvas, quad(left, left + STRIPE, FAR, 0.0), (top, (4, 22, 5)), (bottom, (8, 37, 9)));
    }
    let corner = Corner { x: 0.0, y: top, depth: 32767.0 };
    let (right, down) = (f64::from(WIDTH), bottom - top);
    let all = [corner, corner.moved(right, 0.0), corner.moved(right, down), corner.moved(0.0, down)];
    shaded(canvas, all, (top, (3, 19, 4)), (bottom, (7, 34, 8)));
}

/// Four corners, each in the colour of its row: from one at a row to another at a
/// lower one.
fn shaded(canvas: &mut Canvas, corners: [Corner; 4], (top, from): (f64, Colour), (bottom, to): (f64, Colour)) {
    canvas.quad(corners, corners.map(|corner| between(from, to, (corner.y - top) / (bottom - top))));
}
