//! `merikohin`, the engine's command. docs/TOOL.md describes it.

mod asm;
mod columns;
mod files;
mod panel;
mod places;
mod problem;
mod ruler;
mod run;
mod scene;
mod sound;
mod terminal;
mod vertices;
mod why;

use files::Output;
use kit::args::{number, Arg, Args};
use kit::words::Told;
use problem::{status, Place, Problem};
use scene::Scene;
use std::process::ExitCode;

/// Each subcommand: its name, its usage, what it does, an example.
const COMMANDS: [(&str, &str, &str, &str); 7] = [
    (
        "asm",
        "merikohin asm FILE.s -o FILE.bin",
        "Assembles a program into a file of big-endian words.",
        "merikohin asm examples/machine/raster.s -o raster.bin",
    ),
    (
        "dis",
        "merikohin dis FILE.bin",
        "Prints a program's words as text that assembles to the same words.",
        "merikohin dis raster.bin",
    ),
    (
        "run",
        "merikohin run FILE.s|FILE.bin [--steps N] [--ram FILE] [--trace] [-o OUT]",
        "Runs a program from a fresh state, with data memory 0, until it halts or N steps are done
(default 1,000,000,000), and prints how it ended. --ram: RAM is the file's bytes (default 4,194,304 bytes of 0).
--trace: prints each step with what it changed. -o: writes the screen (.png, .ppm, .txt) or the RAM (.ram).
Status 0 where the program ended (halt 12), 1 where its steps ran out, 5 where it halted with another number.",
        "merikohin run examples/machine/raster.s -o raster.png",
    ),
    (
        "draw",
        "merikohin draw SCENE [-o OUT]",
        "Draws a scene, a text with a line for the screen and for each clear or triangle, and prints for each
triangle how many pixels it covered and wrote. -o: writes the screen (.png, .ppm, .txt) or the RAM (.ram).

  screen WIDTH HEIGHT [COLOUR_START DEPTH_START [RAM]]
  clear COLOUR DEPTH
  triangle vertex X Y COLOUR DEPTH vertex X Y COLOUR DEPTH vertex X Y COLOUR DEPTH
  triangle X1 Y1 X2 Y2 X3 Y3 [depth C A B] [red C A B] [green C A B] [blue C A B]

Vertices are in eighths of a pixel, clockwise. A colour is a number, or RED,GREEN,BLUE up to 31,63,31. Depths are from 0,
the nearest, to 65535; at a vertex to 32767.",
        "merikohin draw examples/scenes/shaded.txt -o shaded.png",
    ),
    (
        "why",
        "merikohin why SCENE X Y",
        "Tells for each triangle of a scene whether it covers the pixel (X, Y), its depth against the stored one,
and whether it was written. Status 0 where a triangle wrote the pixel, 1 where none did.",
        "merikohin why examples/scenes/pair.txt 2 1",
    ),
    (
        "panel",
        "merikohin panel FILE.wav|FILE.raw [--per-column N] [--offset D] [--channel C] [--from K] [--rate HZ] [--size WxH]
                  [--where-column X] [--where-sample S] [-o OUT]",
        "Draws a recording as a waveform with a ruler in samples below it, and prints which samples it shows.
A column shows N samples, column 0 from sample K + D on, and fills the rows from the largest to the smallest.

  --per-column N   1 to 64; left out, the least that shows all of the recording, or a second of it
  --offset D       -2048 to 2047, by default 0: D + N moves the picture one column to the left, D - N to the right
  --from K         the recording begins at sample K of the file; it has 40,960 samples at most
  --channel C      takes channel C, counted from 1, of a file with several
  --rate HZ        samples a second, for the times, of a file that does not say: a .raw file
  --size WxH       the waveform's columns (16 to 640, by 16) and rows (1 to 480), by default 640x120
  --where-column X tells which samples column X shows, their times, and the largest and the smallest
  --where-sample S tells the column in which sample S of the file stands, its value, row and time
  -o OUT           writes waveform and ruler (.png, .ppm, .txt) or the RAM (.ram)

Samples are numbered as in the file, columns and rows on the screen, all from 0. A .wav file has 16-bit PCM samples,
a .raw file signed 16-bit little-endian samples of one channel. The --where options may be given more than once.
Status 1 where a column that is asked for has no sample, or a sample no column.",
        "merikohin panel examples/sounds/snick.wav --per-column 4 --offset 48 --where-sample 1300 -o panel.png",
    ),
    (
        "explain",
        "merikohin explain NUMBER",
        "Tells what a number that a call, a halting step or this program answers means. Status 1 where it means nothing.",
        "merikohin explain 6",
    ),
];

fn main() -> ExitCode {
    terminal::end_with_the_pipe();
    let done = Args::from_env().map_err(usage).and_then(command);
    ExitCode::from(match done {
        Ok(true) => 0,
        Ok(false) => status::NO,
        Err(problem) => {
            eprintln!("merikohin: {problem}");
            problem.status()
        }
    })
}

fn usage(words: impl Into<String>) -> Problem {
    Problem::new(problem::USAGE, words)
}

fn command(mut args: Args) -> Result<bool, Problem> {
    let name = match args.next() {
        Some(Arg::Plain(name)) => name,
        Some(Arg::Option(option)) if option == "--help" || option == "-h" => {
            print!("{}", help());
            return Ok(true);
        }
        Some(Arg::Option(option)) if option == "--version" => {
            println!("merikohin {}", env!("CARGO_PKG_VERSION"));
            return Ok(true);
        }
        Some(Arg::Option(option)) => return Err(usage(format!("{option}; merikohin --help tells more"))),
        None => return Err(usage("a subcommand is wanted; merikohin --help tells which")),
    };
    let row = COMMANDS.iter().find(|row| row.0 == name);
    let (_, form, does, example) = row.ok_or_else(|| usage(format!("{name}; merikohin --help tells more")))?;
    let words = Words::read(args).map_err(|problem| usage(format!("{problem}; usage: {form}")))?;
    if words.help {
        println!("usage: {form}\n\n{does}\n\nExample: {example}");
        return Ok(true);
    }
    let wrong = || usage(format!("usage: {form}"));
    let plain: Vec<&str> = words.plain.iter().map(String::as_str).collect();
    match (name.as_str(), &plain[..]) {
        ("asm", [file]) if words.only(&["-o"]) => assemble(file, words.output.as_deref().ok_or_else(wrong)?),
        ("dis", [file]) if words.only(&[]) => disassemble(file),
        ("run", [file]) if words.only(&["-o", "--steps", "--ram", "--trace"]) => run::run(&words.run(file)?),
        ("draw", [file]) if words.only(&["-o"]) => draw(file, words.output()?),
        ("why", [file, x, y]) if words.only(&[]) => {
            let (x, y) = (number(x).map_err(usage)?, number(y).map_err(usage)?);
            why::why(&read_scene(file)?, x, y)
        }
        ("panel", [file]) if words.only(&panel::NAMES) => panel::panel(file, &words.panel, words.output()?),
        ("explain", [text]) if words.only(&[]) => Ok(explain(number(text).map_err(usage)?)),
        _ => Err(wrong()),
    }
}

fn help() -> String {
    let mut text =
        String::from("merikohin draws triangles and waveforms and runs programs with the proved engine.\n\n");
    for (_, form, _, _) in COMMANDS {
        text += &format!("  {form}\n");
    }
    text + "\nmerikohin SUBCOMMAND --help tells more, with an example.
Status: 0 done, 1 the answer is no, 2 usage, 3 refused, 4 file or system, 5 halted with another number than 12.\n"
}

/// The words after the subcommand.
#[derive(Default)]
struct Words {
    plain: Vec<String>,
    options: Vec<String>,
    output: Option<String>,
    steps: Option<u64>,
    ram: Option<String>,
    trace: bool,
    panel: panel::Options,
    help: bool,
}

impl Words {
    fn read(mut args: Args) -> Result<Words, String> {
        let mut words = Words::default();
        while let Some(arg) = args.next() {
            match arg {
                Arg::Plain(word) => words.plain.push(word),
                Arg::Option(option) => {
                    match option.as_str() {
                        "-o" => words.output = Some(args.value()?),
                        "--steps" => words.steps = Some(args.number()?),
                        "--ram" => words.ram = Some(args.value()?),
                        "--trace" => words.trace = true,
                        "--help" | "-h" => words.help = true,
                        other if words.panel.take(other, &mut args)? => {}
                        _ => return Err(format!("unknown: {option}")),
                    }
                    words.options.push(option);
                }
            }
        }
        Ok(words)
    }

    /// Whether no option but these was given.
    fn only(&self, options: &[&str]) -> bool {
        self.options.iter().all(|given| options.contains(&given.as_str()))
    }

    fn output(&self) -> Result<Option<Output>, Problem> {
        self.output.clone().map(Output::new).transpose()
    }

    fn run(&self, file: &str) -> Result<run::Asked, Problem> {
        Ok(run::Asked {
            file: file.into(),
            steps: self.steps.unwrap_or(1_000_000_000),
            ram: self.ram.clone(),
            trace: self.trace,
            output: self.output()?,
        })
    }
}

fn assemble(file: &str, output: &str) -> Result<bool, Problem> {
    let words = asm::assemble(file, &files::read_text(file)?)?.words;
    if words.len() > merikohin::PROGRAM_MOST {
        let value = format!("{} words", words.len());
        return Err(Problem::refused(merikohin::Refusal::ProgramTooLong, value).at(Place::file(file)));
    }
    files::write(output, &files::bytes_of(&words))?;
    Ok(true)
}

fn disassemble(file: &str) -> Result<bool, Problem> {
    for (place, word) in files::words_of(file, &files::read(file)?)?.into_iter().enumerate() {
        println!("    {:32} ; {place}: {word:08x}", Told(word).to_string());
    }
    Ok(true)
}

fn read_scene(file: &str) -> Result<Scene, Problem> {
    Scene::read(file, &files::read_text(file)?)
}

fn draw(file: &str, output: Option<Output>) -> Result<bool, Problem> {
    let scene = read_scene(file)?;
    let mut ram = scene.ram();
    let mut progress = terminal::Progress::new();
    for (k, (line, item)) in scene.items.iter().enumerate() {
        if let Some(drawn) = scene.draw(&mut ram, *line, *item)? {
            println!("line {line}: covered {}, written {}", drawn.covered, drawn.written);
        }
        if k % 1000 == 999 {
            progress.say(&format!("{} of {} lines", k + 1, scene.items.len()));
        }
    }
    if let Some(output) = output {
        output.write(&ram, [scene.screen])?;
    }
    Ok(true)
}

/// Whether the number means something.
fn explain(number: u32) -> bool {
    let who = match number {
        0 => "what every call answers where nothing was refused",
        1..=10 => "a call's refusal: nothing was changed",
        11..=17 => "a halt: the step was not carried out, and its state says so",
        _ => "this program's own",
    };
    let sentence = if number == 0 { Some(("done", 0)) } else { problem::meaning(number) };
    match sentence {
        Some((sentence, _)) => println!("{number}: {sentence}\n({who})"),
        None => println!("{number}: nothing answers this number"),
    }
    sentence.is_some()
}
