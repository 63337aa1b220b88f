//! The second program's plane with one slip.

use super::case::{seen, Case};
use crate::case::second_vertices;
use crate::subject::{Slip, ThroughSeen};
use second::through::{doubled_area, exact_plane, Fraction, Through, RAISE};
use second::{vertex_out_of_range, Plane, Vertex};

pub fn plane_through(slip: Slip, case: &Case) -> ThroughSeen {
    let vertices = second_vertices(case.vertices);
    let out = vertex_out_of_range(&vertices);
    // Of vertices out of range too, so that 9 can go before 6.
    let (nine, plane) = judged(slip, &vertices, case.values);
    let number = match (out, nine) {
        (true, true) if slip == Slip::NineFirst => 9,
        (true, _) => 6,
        (false, true) => 9,
        (false, false) => 0,
    };
    let kept = number == 0 || slip == Slip::RefusedPlane;
    seen(Through { number, plane: if kept { plane } else { Plane { c: 0, a: 0, b: 0 } } })
}

/// Whether 9 applies, and the plane.
fn judged(slip: Slip, vertices: &[Vertex; 3], values: [i32; 3]) -> (bool, Plane) {
    let most = if slip == Slip::Value32768 { 32768 } else { 32767 };
    let value_out = values.iter().any(|value| !(0..=most).contains(value));
    let area = doubled_area(vertices);
    let no_area = match slip {
        Slip::NoArea => area < 0,
        Slip::EitherWay => area == 0,
        _ => area <= 0,
    };
    let three = three(slip, vertices, values);
    let judged = match slip {
        Slip::JudgedUnraised => [three[0] - RAISE, three[1], three[2]],
        Slip::StepsNotJudged => [three[0], 0, 0],
        _ => three,
    };
    let too_large = judged.iter().any(|&number| i32::try_from(number).is_err());
    let [c, a, b] = three.map(|number| number as i32);
    (value_out || no_area || too_large, Plane { c, a, b })
}

/// The final three, as whole numbers.
fn three(slip: Slip, vertices: &[Vertex; 3], values: [i32; 3]) -> [i128; 3] {
    let [mut c, mut a, mut b] = exact_plane(vertices, values);
    let half = |step: Fraction| step.numerator / 2;
    if slip == Slip::FromTheCorner {
        // Half a step back, to the left and up.
        c.numerator -= half(a) + half(b);
    }
    if slip == Slip::StepsPerEighth || slip == Slip::EighthsRounded {
        a.numerator /= 8;
        b.numerator /= 8;
    }
    let times = if slip == Slip::EighthsRounded { 8 } else { 1 };
    let raise = match slip {
        Slip::NotRaised => 0,
        Slip::RaisedBy1118 => 1118,
        _ => RAISE,
    };
    [rounded(slip, c) + raise, rounded(slip, a) * times, rounded(slip, b) * times]
}

fn rounded(slip: Slip, Fraction { numerator, denominator }: Fraction) -> i128 {
    match denominator {
        // Only where no area is accepted.
        0 => 0,
        _ if slip == Slip::TowardZero => numerator / denominator,
        1.. => numerator.div_euclid(denominator),
        _ => (-numerator).div_euclid(-denominator),
    }
}
