//! The command as its users run it: what it prints, its numbers and statuses.

use kit::png;
use kit::rng::Rng;
use std::fs;
use std::path::{Path, PathBuf};
use std::process::Command;

/// What a run of the command printed, and its status.
struct Done {
    out: String,
    err: String,
    status: i32,
}

fn merikohin(words: &[&str]) -> Done {
    let output = Command::new(env!("CARGO_BIN_EXE_merikohin")).args(words).current_dir("../..").output().unwrap();
    let text = |bytes: Vec<u8>| String::from_utf8(bytes).unwrap();
    Done { out: text(output.stdout), err: text(output.stderr), status: output.status.code().unwrap() }
}

/// Done with status 0 and nothing on standard error.
fn done(words: &[&str]) -> String {
    let done = merikohin(words);
    assert_eq!((done.status, done.err.as_str()), (0, ""), "{words:?}");
    done.out
}

/// A file of a test's own.
fn file(name: &str) -> String {
    Path::new(env!("CARGO_TARGET_TMPDIR")).join(name).to_str().unwrap().into()
}

fn written(name: &str, content: impl AsRef<[u8]>) -> String {
    let path = file(name);
    fs::write(&path, content).unwrap();
    path
}

fn repository(name: &str) -> PathBuf {
    Path::new("../..").join(name)
}

/// Fails with this status, and its message is `merikohin: NUMBER: SENTENCE`, then
/// ends with the value and the place.
fn fails(words: &[&str], status: i32, number: u32, ends: &str) {
    let done = merikohin(words);
    let start = format!("merikohin: {number}: ");
    assert_eq!(done.status, status, "{words:?}: {}", done.err);
    assert!(done.err.starts_with(&start) && done.err.trim_end().ends_with(ends), "{words:?}: {}", done.err);
    let sentence = merikohin(&["explain", &number.to_string()]).out;
    let sentence = sentence.lines().next().unwrap();
    assert!(done.err.contains(sentence), "{}: {sentence}", done.err);
}

/// Command lines that fail: with which status and number, and words of the message.
const LINES: [(&str, i32, u32, &str); 36] = [
    ("", 2, 100, "--help tells which"),
    ("paint", 2, 100, "paint; merikohin --help tells more"),
    ("--loud", 2, 100, "--loud; merikohin --help tells more"),
    ("asm EMPTY", 2, 100, "usage: merikohin asm FILE.s -o FILE.bin"),
    ("dis HALF --trace", 2, 100, "usage: merikohin dis FILE.bin"),
    ("draw SCENE --trace", 2, 100, "usage: merikohin draw SCENE [-o OUT]"),
    ("asm EMPTY -o x.bin --trace", 2, 100, "usage: merikohin asm"),
    ("why SCENE 1 1 -o x.png", 2, 100, "usage: merikohin why"),
    ("explain 6 -o x.png", 2, 100, "usage: merikohin explain"),
    ("why SCENE 1", 2, 100, "usage: merikohin why SCENE X Y"),
    ("why SCENE 1 y", 2, 100, "not a number: y"),
    ("run EMPTY --steps", 2, 100, "--steps needs a value; usage: merikohin run"),
    ("explain six", 2, 100, "not a number: six"),
    ("run nowhere.s", 4, 101, "(nowhere.s)"),
    ("asm EMPTY -o nowhere/x.bin", 4, 102, "(nowhere/x.bin)"),
    ("draw SCENE -o x.gif", 2, 103, ".png, .ppm, .txt or .ram is wanted (x.gif)"),
    ("run SCENE", 2, 103, ".s or .bin is wanted"),
    ("run EMPTY -o nowhere.png", 3, 104, "(nowhere.png)"),
    ("dis HALF", 3, 105, "5 bytes"),
    ("why SCENE 16 0", 3, 121, "(16, 0) of 16 by 4"),
    ("why SCENE 0 4", 3, 121, "(0, 4) of 16 by 4"),
    ("run EMPTY --offset 1", 2, 100, "usage: merikohin run"),
    ("panel SOUND --steps 1", 2, 100, "usage: merikohin panel"),
    ("panel SOUND --size 640", 2, 100, "--size is WIDTHxHEIGHT, not 640; usage: merikohin panel"),
    ("panel SOUND --rate 0", 2, 100, "--rate is 1 or more; usage: merikohin panel"),
    ("panel SOUND --where-column -1", 2, 100, "the number does not fit: -1; usage: merikohin panel"),
    ("panel SOUND --rate 8000", 2, 100, "--rate is for files that do not say theirs; this one says 48000"),
    ("panel nowhere.wav", 4, 101, "(nowhere.wav)"),
    ("panel SCENE", 2, 103, ".wav or .raw is wanted"),
    ("panel SOUND -o x.wav", 2, 103, ".png, .ppm, .txt or .ram is wanted (x.wav)"),
    ("panel ODD", 3, 106, "it has 3 bytes, not a whole number of samples; signed 16-bit little-endian samples"),
    (
        "panel NO_SOUND",
        3,
        106,
        "it does not begin as a WAV file, with RIFF and WAVE; a WAV file of 16-bit PCM samples is taken",
    ),
    ("panel SOUND --channel 2", 3, 107, "--channel 2; it has channel 1 alone"),
    ("panel SOUND --where-column 640", 3, 122, "--where-column 640; it has columns 0 to 639"),
    ("panel SOUND --where-sample 12000", 3, 123, "--where-sample 12000; it has 12000 samples, counted from 0"),
    ("panel SOUND --from 12000", 3, 123, "--from 12000; it has 12000 samples, counted from 0"),
];

/// The waveform's colour.
const WAVE: &str = "6718";

/// The recording that the pages show.
const SNICK: &str = "examples/sounds/snick.wav";

/// Programs and scenes that are refused at their last line: the suffix, the text, the number, the value.
const TEXTS: [(&str, &str, u32, &str); 15] = [
    ("s", "9x: TREEPUT", 110, "9x"),
    ("s", "\nJUMP 3", 111, "JUMP"),
    ("s", "ADD R1, R2", 112, "ADD r1, r2, r3"),
    ("s", "LI R1, 40000", 113, "40000 is outside -32768..32767"),
    ("s", "JMP there", 114, "there"),
    ("s", "a:\na: TREEPUT", 115, "a"),
    ("s", "LI R1, 4 4", 116, "4 4"),
    ("txt", "clear 0 0", 120, "clear"),
    ("txt", "screen 16 4\nsquare 1", 110, "square"),
    ("txt", "screen 16 4\nclear 65536 0", 113, "colour = 65536"),
    ("txt", "screen 16 4\nclear red 0", 116, "colour = red"),
    ("txt", "screen 16 4\nclear 31,64,31 0", 113, "green of colour = 64, above 63"),
    ("txt", "screen 16 4\ntriangle vertex 0 0 1 0", 110, VERTICES),
    ("txt", "screen 16 4\ntriangle vertex 0 0 1 0 vertex 8 0 65536 0 vertex 0 8 1 0", 113, "colour2 = 65536"),
    ("txt", "screen 16 4\ntriangle vertex 0 0 1 0 vertex 8 0 1 far vertex 0 8 1 0", 116, "depth2 = far"),
];

/// How a triangle of vertices is written.
const VERTICES: &str = "triangle vertex x y colour depth vertex x y colour depth vertex x y colour depth";

/// Every number of the command's own, with its status.
#[test]
fn its_own_numbers() {
    let files = [
        ("SCENE", written("own.txt", "screen 16 4\n")),
        ("EMPTY", written("empty.s", "")),
        ("HALF", written("half.bin", [0; 5])),
        ("SOUND", SNICK.into()),
        ("ODD", written("odd.raw", [0; 3])),
        ("NO_SOUND", written("no.wav", "this is no sound")),
    ];
    for (line, status, number, says) in LINES {
        let named = |word| files.iter().find(|(name, _)| *name == word).map_or(word, |(_, path)| path.as_str());
        let words: Vec<&str> = line.split_whitespace().map(named).collect();
        let done = merikohin(&words);
        assert!(done.err.contains(says), "{words:?}: {}", done.err);
        fails(&words, status, number, "");
    }
    for (k, (suffix, text, number, value)) in TEXTS.iter().enumerate() {
        let path = written(&format!("own{k}.{suffix}"), text);
        let command = if *suffix == "s" { "run" } else { "draw" };
        fails(&[command, &path], 3, *number, &format!(": {value} ({path}, line {})", text.lines().count()));
    }
    let tried: Vec<u32> = LINES.iter().map(|line| line.2).chain(TEXTS.iter().map(|text| text.2)).collect();
    for number in (100..200).filter(|number| merikohin(&["explain", &number.to_string()]).status == 0) {
        assert!(tried.contains(&number), "{number} is not tried");
    }
}

/// Scenes that the engine refuses: the number, the value and the line.
const SCENES: [(&str, u32, &str, usize); 10] = [
    ("screen 16 4 0 128 4194305", 3, "4194305 bytes", 1),
    ("screen 20 4", 5, "20 by 4, colours at 0, depths at 160, RAM of 320 bytes", 1),
    ("screen 16 4 0 130 257", 5, "16 by 4, colours at 0, depths at 130, RAM of 257 bytes", 1),
    ("screen 16 4\n\n\n\n\n\ntriangle 8192 0 0 0 0 0", 6, "x1 = 8192", 7),
    ("screen 16 4\ntriangle 0 0 0 8191 0 -8193", 6, "y3 = -8193", 2),
    ("screen 16 4\n\ntriangle vertex 0 0 1 0 vertex 8192 0 1 0 vertex 0 8 1 40000", 6, "x2 = 8192", 3),
    ("screen 16 4\ntriangle vertex 0 0 1 0 vertex 8 0 1 32768 vertex 0 8 1 0", 9, "depth2 = 32768", 2),
    (
        "screen 16 4\ntriangle vertex 0 0 1 0 vertex 0 8 1 0 vertex 8 0 1 0",
        9,
        "the vertices go round anticlockwise, which covers nothing: exchange two of them",
        2,
    ),
    (
        "screen 16 4\ntriangle vertex 0 0 1 0 vertex 8 8 1 0 vertex 16 16 1 0",
        9,
        "the vertices are on one line, which covers nothing",
        2,
    ),
    (
        "screen 640 480\nclear 0 0\ntriangle vertex 4800 0 1 0 vertex 4880 0 1 32767 vertex 4800 80 1 0",
        9,
        "depth: too steep, outside -32768..32767 at pixel (0, 0) or from one pixel to the next",
        3,
    ),
];

/// The engine's refusals that a user can meet.
#[test]
fn refusals() {
    let long = written("long.s", "TREEPUT\n".repeat(1025));
    let words = written("long.bin", vec![0; 4 * 1025]);
    let ram = written("long.ram", vec![0; 4_194_305]);
    let empty = written("refusals.s", "");
    fails(&["asm", &long, "-o", &file("never.bin")], 3, 1, &format!("1025 words ({long})"));
    assert!(!Path::new(&file("never.bin")).exists());
    fails(&["run", &words], 3, 1, &format!("1025 words ({words})"));
    fails(&["run", &empty, "--ram", &ram], 3, 3, &format!("4194305 bytes ({empty})"));
    for (k, (text, number, value, line)) in SCENES.iter().enumerate() {
        let path = written(&format!("refused{k}.txt"), text);
        fails(&["draw", &path], 3, *number, &format!(": {value} ({path}, line {line})"));
        fails(&["why", &path, "0", "0"], 3, *number, &format!(": {value} ({path}, line {line})"));
    }
}

/// Every halt: 12 is done, the others are status 5, with the word and its line.
#[test]
fn halts() {
    let ended = written("halt12.s", "LI R1, 5 ; and on past the end\n");
    assert_eq!(done(&["run", &ended]), "1 step, place 1, halt 12\nR1 = 00000005 (5)\n");
    let cases = [
        (11, ".word 0xa4000000", ".word 0xa4000000"),
        (13, "LD R1, 1024", "LD R1, R0(1024)"),
        (14, "TREEPUT", "TREEPUT"),
        (15, "LI R2, 1009\nREAD R2, R0", "READ R2, R0"),
        (16, "LI R2, 2\nWRITE R0, R2", "WRITE R0, R2"),
        (17, "CLS R0, R0", "CLS R0, R0"),
    ];
    for (number, text, told) in cases {
        let path = written(&format!("halt{number}.s"), text);
        let line = text.lines().count();
        fails(&["run", &path], 5, number, &format!(": {told} at place {} ({path}, line {line})", line - 1));
        let binary = file(&format!("halt{number}.bin"));
        done(&["asm", &path, "-o", &binary]);
        fails(&["run", &binary], 5, number, &format!(": {told} at place {} ({binary})", line - 1));
        assert!(merikohin(&["run", &binary]).out.contains(&format!("halt {number}")));
    }
}

/// Steps that run out are a no; the same steps in two ways end alike.
#[test]
fn steps() {
    let endless = written("endless.s", "again: LI R1, R1(1)\nJMP again\n");
    let ran = merikohin(&["run", &endless, "--steps", "7"]);
    assert_eq!((ran.status, ran.err.as_str()), (1, ""));
    assert_eq!(ran.out, "7 steps, place 1, halt 0\nR1 = 00000004 (4)\n");
    let traced = merikohin(&["run", &endless, "--steps", "7", "--trace"]);
    assert_eq!((traced.status, traced.out.lines().count()), (1, 9));
    assert!(traced.out.ends_with(&ran.out));
    assert_eq!(traced.out.lines().nth(1), Some("   1  48000000  JMP R0(0)                 to 0"));
    assert_eq!(merikohin(&["run", &endless, "--steps", "0"]).out, "0 steps, place 0, halt 0\n");
    // Long enough for progress to be shown, and no terminal here.
    let long = merikohin(&["run", &endless, "--steps", "5000000"]);
    assert!(long.err.is_empty() && long.out.starts_with("5000000 steps, place 0, halt 0"), "{}{}", long.err, long.out);
}

#[test]
fn a_trace() {
    let text =
        "LI R1, -1\nST 3, R1\nLI R2, 128\nSCRSET R0, R2, 516\nCLS R1, R1\nTREESET R0, R0, R1\nTREEPUT\n.word -1\n";
    let path = written("trace.s", text);
    let wanted = "   0  0820ffff  LI R1, R0(-1)             R1 = ffffffff, negative = 1
   1  04200003  ST R0(3), R1              data 3 = ffffffff
   2  08400080  LI R2, R0(128)            R2 = 00000080, negative = 0
   3  8c020204  SCRSET R0, R2, 516        screen 16 by 4, colours at 0, depths at 128
   4  90210000  CLS R1, R1                256 bytes of RAM from 0 to 255
   5  94000800  TREESET R0, R0, R1        tree at (0, 0), leaves 1111111111111111
   6  a0000000  TREEPUT                   32 bytes of RAM from 0 to 31
   7  ffffffff  .word 0xffffffff          halt 11
";
    let traced = merikohin(&["run", &path, "--trace"]);
    assert!(traced.out.starts_with(wanted), "{}", traced.out);
    assert_eq!(traced.status, 5);
}

/// Disassembled and assembled again, a program has the same bytes.
#[test]
fn there_and_back() {
    let mut programs: Vec<String> = Vec::new();
    for name in ["matvec", "matmat", "raster"] {
        let binary = file(&format!("{name}.bin"));
        done(&["asm", &format!("examples/machine/{name}.s"), "-o", &binary]);
        programs.push(binary);
    }
    let mut rng = Rng::new(7);
    let random: Vec<u8> = (0..4 * 1024).map(|_| rng.next() as u8).collect();
    programs.push(written("random.bin", random));
    for binary in &programs {
        let text = written("back.s", done(&["dis", binary]));
        let again = file("back.bin");
        done(&["asm", &text, "-o", &again]);
        assert_eq!(fs::read(&again).unwrap(), fs::read(binary).unwrap(), "{binary}");
    }
}

/// The paper's three programs, and the loop's picture against the drawing's.
#[test]
fn sample_programs() {
    let vector = done(&["run", "examples/machine/matvec.s"]);
    // Sums of floors: row r is (1/2 + 2r)'s and (3/2 + 2r)'s floors, and 2 (1 + 2r) - 3 (2 + 2r) wholes.
    for row in 0..4 {
        let value = (2 * row) + (2 * row + 1) + 65536 * (2 * (1 + 2 * row) - 3 * (2 + 2 * row));
        let line = format!("R{} = {:08x} ({value})\n", 10 + row, value as u32);
        assert!(vector.contains(&line), "{line}{vector}");
    }
    let matrix = done(&["run", "examples/machine/matmat.s"]);
    for column in 0..4 {
        let value: i32 = (0..4).map(|k| (13 + k) * (16 - 4 * k - column)).sum::<i32>() << 16;
        assert!(matrix.contains(&format!("R{} = {value:08x}", 10 + column)), "{matrix}");
    }
    let (by_loop, by_call) = (file("loop.ram"), file("call.ram"));
    done(&["run", "examples/machine/raster.s", "-o", &by_loop]);
    done(&["draw", "examples/scenes/raster.txt", "-o", &by_call]);
    assert!(fs::read(by_loop).unwrap() == fs::read(by_call).unwrap());
    let picture = file("raster.png");
    done(&["run", "examples/machine/raster.s", "-o", &picture]);
    assert!(fs::read(picture).unwrap() == fs::read(repository("examples/machine/raster.png")).unwrap());
}

/// One picture in three forms, and the RAM; the PNG read back.
#[test]
fn outputs() {
    let all = ["png", "ppm", "txt", "ram"].map(|suffix| {
        let path = file(&format!("pair.{suffix}"));
        let out = done(&["draw", "examples/scenes/pair.txt", "-o", &path]);
        assert_eq!(out, "line 4: covered 6, written 6\nline 5: covered 10, written 10\n");
        fs::read(path).unwrap()
    });
    let (width, height, pixels) = png::decode(&all[0]).unwrap();
    assert_eq!((width, height), (16, 4));
    assert_eq!(all[1], [b"P6\n16 4\n255\n", &pixels[..]].concat());
    let text = String::from_utf8(all[2].clone()).unwrap();
    let digits: String = text.lines().map(|line| line.split(' ').map(|p| &p[3..]).collect::<String>() + "\n").collect();
    assert_eq!(digits, fs::read_to_string(repository("crates/demo/stdout")).unwrap());
    assert_eq!((all[3].len(), all[3][1], all[3][128]), (256, 1, 0));
}

/// Vertices with their colours and depths: two triangles that cross, and at each pixel the nearer one is seen.
#[test]
fn shaded() {
    let scene = "examples/scenes/shaded.txt";
    let picture = file("shaded.png");
    let out = done(&["draw", scene, "-o", &picture]);
    assert_eq!(out, "line 5: covered 22076, written 22076\nline 6: covered 25520, written 16392\n");
    assert!(fs::read(picture).unwrap() == fs::read(repository("examples/scenes/shaded.png")).unwrap());
    let pixels = [
        ("160", ["4583, stored 65535: written", "4976, stored 4583: hidden"]),
        ("200", ["5484, stored 65535: written", "4114, stored 5484: written"]),
    ];
    for (x, fates) in pixels {
        let told = done(&["why", scene, x, "120"]);
        for (line, fate) in told.lines().skip(1).zip(fates) {
            assert!(line.contains(": triangle: covers it ") && line.contains(&format!("; depth {fate}")), "{told}");
        }
    }
}

/// RAM from a file, through a program, into a file.
#[test]
fn ram() {
    let (program, before) = (written("ram.s", "READ R0, R0\nLI R1, 64\nWRITE R0, R1\n"), written("in.ram", [7; 128]));
    let after = file("out.ram");
    fs::write(&before, (0..128).collect::<Vec<u8>>()).unwrap();
    done(&["run", &program, "--ram", &before, "-o", &after]);
    let bytes = fs::read(after).unwrap();
    assert_eq!((bytes.len(), bytes[..64] == bytes[64..], bytes[63]), (128, true, 63));
}

/// Covered and written, hidden, outside, on a shared edge, cleared away.
#[test]
fn why() {
    let text = "screen 16 4\nclear 0 65535\ntriangle 0 0 32 0 0 32 blue 1.0 0 0 depth 5.0 0 0
triangle 0 0 32 0 0 32 blue 2.0 0 0 depth 6.0 0 0\ntriangle 32 32 0 32 32 0 red 1.0 0 0\n";
    let path = written("why.txt", text);
    assert_eq!(
        done(&["why", &path, "1", "0"]),
        "line 2: clear: colour 0000, depth 65535
line 3: triangle: covers it (edge values 128, 512, 384); depth 5, stored 65535: written, colour 0001
line 4: triangle: covers it (edge values 128, 512, 384); depth 6, stored 5: hidden, not written
line 5: triangle: does not cover it (edge values 896, -512, 640): edge 2 is -512
now: colour 0001, depth 5\n"
    );
    let shared = done(&["why", &path, "2", "1"]);
    assert!(shared
        .contains("line 3: triangle: does not cover it (edge values 384, 0, 640): edge 2 is 0, and zero is outside"));
    assert!(shared.contains("line 5: triangle: covers it (edge values 640, 0, 384)"), "{shared}");
    let outside = merikohin(&["why", &path, "9", "3"]);
    assert_eq!((outside.status, outside.err.as_str()), (1, ""));
    assert!(outside.out.ends_with("now: colour 0000, depth 65535\n"));
    let hidden = written("hidden.txt", "screen 16 4\ntriangle 0 0 32 0 0 32 blue 1.0 0 0 depth 1.0 0 0\n");
    let hidden = merikohin(&["why", &hidden, "0", "0"]);
    assert!(hidden.status == 1 && hidden.out.contains("depth 1, stored 0: hidden, not written"), "{}", hidden.out);
}

/// The pages' pictures of one recording at two offsets, and what is told beside them.
#[test]
fn panels() {
    for (offset, column) in [("0", 325), ("48", 313)] {
        let picture = file(&format!("panel-{offset}.png"));
        let words = ["panel", SNICK, "--per-column", "4", "--offset", offset, "--where-sample", "1300", "-o", &picture];
        let told = done(&words);
        assert!(told.contains(&format!("column {column}, row ")), "{told}");
        let kept = fs::read(repository(&format!("docs/panel-{offset}.png"))).unwrap();
        assert!(fs::read(picture).unwrap() == kept, "{offset}");
        assert_eq!(png::decode(&kept).map(|picture| (picture.0, picture.1)), Ok((640, 120 + 36)));
    }
    let page = fs::read_to_string(repository("docs/TOOL.md")).unwrap();
    let line = page.lines().find_map(|line| line.trim().strip_prefix("$ merikohin panel ")).unwrap();
    let picture = file("page.png");
    let words: Vec<&str> = line.split(' ').map(|word| if word == "panel.png" { &picture } else { word }).collect();
    for line in done(&[&["panel"], &words[..]].concat()).lines() {
        assert!(page.contains(&format!("\n    {line}\n")), "{line}");
    }
}

/// d + n is d one column to the left, but for what comes in at the right side.
#[test]
fn one_column_to_the_left() {
    let rows = |offset: &str| {
        let text = file(&format!("moved{offset}.txt"));
        done(&["panel", SNICK, "--per-column", "16", "--offset", offset, "--size", "160x40", "-o", &text]);
        let text = fs::read_to_string(text).unwrap();
        let bars = |line: &str| line.split(' ').map(|pixel| pixel == WAVE).collect();
        text.lines().take(40).map(bars).collect::<Vec<Vec<bool>>>()
    };
    let (before, after) = (rows("32"), rows("48"));
    assert!(before.iter().zip(&after).all(|(before, after)| before[1..] == after[..159]));
    assert!(before.concat().contains(&true) && before != after);
}

/// What the engine refuses, with the option that it is; and places that have nothing.
#[test]
fn no_panels() {
    for (option, value) in [("--per-column", "0"), ("--per-column", "65"), ("--offset", "-2049"), ("--offset", "2048")]
    {
        fails(&["panel", SNICK, option, value], 3, 10, &format!(": {option} {value} ({SNICK})"));
    }
    let never = file("never.png");
    for size in ["20x4", "16x0", "656x1", "16x481", "4294967295x4294967295"] {
        let taken = "a width of 16 to 640 by 16 and a height of 1 to 480 are taken";
        // 5 goes before 10.
        let words = ["panel", SNICK, "--size", size, "--per-column", "99", "-o", &never];
        fails(&words, 3, 5, &format!(": --size {size}; {taken} ({SNICK})"));
    }
    fails(&["panel", SNICK, "--where-column", "640", "-o", &never], 3, 122, "");
    assert!(!Path::new(&never).exists());
    let empty = written("empty.raw", "");
    let told = merikohin(&["panel", &empty, "--where-column", "0", "-o", &file("none.png")]);
    assert_eq!((told.status, told.err.as_str()), (1, ""));
    let wanted = "0 samples; times are told where --rate is given
panel: 640 columns of 1 sample, offset 0: no samples
drawn: 0 pixels
column 0: no samples; it is for sample 0, and the recording has no samples\n";
    assert_eq!(told.out, format!("{empty}: {wanted}"));
    assert!(Path::new(&file("none.png")).exists());
}

/// A whole second and more, on screens of every width; where it does not fit, how the rest is seen.
#[test]
fn a_whole_second() {
    let second: Vec<u8> = (0..50_000).flat_map(|k: i32| ((k * 7919) as i16).to_le_bytes()).collect();
    let path = written("second.raw", second);
    for k in 1..=40 {
        let (columns, size) = (16 * k, format!("{}x{k}", 16 * k));
        let told = done(&["panel", &path, "--rate", "8000", "--size", &size]);
        let part = format!("8000 samples do not fit: {columns} columns of 64, the most, show {}\n", 64 * columns);
        assert_eq!(told.contains(&part), 64 * columns < 8000, "{told}");
    }
    let told = done(&["panel", &path, "--rate", "48000", "--offset", "7"]);
    assert!(
        told.contains("samples 7 to 40959, ") && told.contains("right of it: 9040 samples; --from 40953 goes on"),
        "{told}"
    );
    let rest = done(&["panel", &path, "--rate", "48000", "--offset", "7", "--from", "40953"]);
    assert!(rest.contains("samples 40960 to 49999, ") && !rest.contains("right of it"), "{rest}");
}

#[test]
fn explanations() {
    assert_eq!(done(&["explain", "0"]).lines().next(), Some("0: done"));
    assert_eq!(done(&["explain", "6"]).lines().next(), Some("6: a vertex number is outside -8192..8191"));
    for number in 0..18 {
        assert!(done(&["explain", &number.to_string()]).starts_with(&format!("{number}: ")));
    }
    for number in ["18", "99", "4294967295"] {
        let done = merikohin(&["explain", number]);
        assert_eq!((done.status, done.out), (1, format!("{number}: nothing answers this number\n")));
    }
}

/// Help for all and for each, with an example that runs.
#[test]
fn help() {
    let all = done(&["--help"]);
    for name in ["asm", "dis", "run", "draw", "why", "panel", "explain"] {
        assert!(all.contains(&format!("merikohin {name} ")), "{all}");
        let one = done(&[name, "--help"]);
        assert!(one.starts_with(&format!("usage: merikohin {name} ")), "{one}");
        let example = one.trim_end().rsplit("Example: merikohin ").next().unwrap();
        let words: Vec<String> = example
            .split(' ')
            .map(|word| {
                if ["raster.", "shaded.", "panel."].iter().any(|name| word.starts_with(name)) {
                    file(&format!("help-{word}"))
                } else {
                    word.into()
                }
            })
            .collect();
        done(&words.iter().map(String::as_str).collect::<Vec<_>>());
    }
    assert_eq!(done(&["--version"]), format!("merikohin {}\n", env!("CARGO_PKG_VERSION")));
}
