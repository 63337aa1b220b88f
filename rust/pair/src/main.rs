//! A first program over the engine: it clears a small screen, draws the pair of
//! triangles that share an edge and prints each pixel's colour as a digit.
//!
//!     tools/library
//!     cd rust && cargo run --release --offline -p pair

use merikohin::{Refusal, Screen, Triangle, Vertex};

fn main() -> Result<(), Refusal> {
    // The engine has no memory of its own. Lend it any bytes, at every call.
    let mut ram = [0; 256];

    // A screen of 16 by 4 pixels in them. A pixel has two bytes of colour and
    // two of depth, so the colours fill 128 bytes and the depths the rest.
    let screen = Screen::new(0, 128, 16, 4);

    // Every pixel gets colour 0 and the farthest depth. A call that is refused
    // answers why, and changes nothing.
    merikohin::clear(&mut ram, screen, 0, 65535)?;

    // Vertices are in eighths of a pixel: 32 is four pixels. A triangle covers
    // the pixels whose centre is inside it. Each vertex has its depth, 0 the
    // nearest, and its colour: here the same at all three, a blue of 1 or 2.
    for (blue, corners) in [(1, [(0, 0), (32, 0), (0, 32)]), (2, [(32, 32), (0, 32), (32, 0)])] {
        let vertices = corners.map(|(x, y)| Vertex { x, y, depth: 0, colour: blue });
        let drawn = merikohin::draw(&mut ram, screen, Triangle::through(vertices)?)?;
        eprintln!("covered {}, written {}", drawn.covered, drawn.written);
    }

    // A row is a part of `ram` and not a copy. Half-words are big-endian: the
    // second byte of a colour is its low one.
    for y in 0..4 {
        let row = merikohin::row(&ram, screen, y)?;
        let digits: String = row.chunks(2).map(|colour| char::from(b'0' + colour[1])).collect();
        println!("{digits}");
    }
    Ok(())
}
