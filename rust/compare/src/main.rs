//! Compares the engine with the second program.
//!
//!     compare [--drawing | --through | --panel | --machine]
//!             [--seed N | --seed random] [--calls N] [--requests N] [--panels N]
//!             [--programs N] [--minutes N]
//!     compare --broken NAME     against a wrong variant, which must mismatch
//!     compare --self-check      all wrong variants; each must be caught
//!     compare --case 'TEXT'     one case, as a mismatch prints it
//!
//! Every call is made on the engine and on the second program, each with its
//! own copies of the memories; number, counts, row part, plane, state, every word
//! of data memory and every byte of RAM are compared after each. What a machine's
//! runs do is done by its first single steps too; where these are all, they
//! must end the same. A panel is drawn twice, and the second time must change
//! nothing more. One line per group, and after each of the four parts
//! `drawing: N comparisons, M mismatches`, and the same of `plane through`, of
//! `panel` and of `machine`. The exit status is 0 if nothing mismatched, 1 if
//! something did, 2 if the command line is wrong.

mod case;
mod check;
mod groups;
mod half_pixel;
mod machine;
mod panel;
mod points;
mod random;
mod run;
mod shrink;
mod subject;
mod through;

use kit::args::{number, Arg, Args};
use run::Run;
use std::process::ExitCode;
use std::time::{SystemTime, UNIX_EPOCH};
use subject::{Part, Slip, Subject, SLIPS};

const USAGE: &str = "usage: compare [PART] [--seed N | --seed random] [COUNTS] [--minutes N] [--trace]
       compare --broken NAME [--seed N] [COUNTS]
       compare --self-check [PART] [--seed N] [COUNTS]
       compare --case 'TEXT'

--drawing      PART: the drawing alone
--through      PART: the plane through three values alone
--panel        PART: the waveform panel alone
--machine      PART: the machine alone (default: all four)
--seed N       the random numbers follow from N (default 1)
--seed random  seed 1 first, then one from the clock
--calls N      COUNTS: at least N random calls of the drawing for each seed (default 100000)
--requests N   COUNTS: at least N random requests for a plane for each seed (default 400000)
--panels N     COUNTS: at least N random panels for each seed (default 30000)
--programs N   COUNTS: at least N random programs of 1,000 steps or more for each seed (default 10000)
--minutes N    at least N minutes of random calls, planes, panels and programs each, for each seed (default 0)
--trace        print each case before it is run
--broken NAME  put a deliberately wrong variant of the second program in the engine's place
--self-check   do so with every variant; each must be caught
--case TEXT    run one case, in the form in which a mismatch prints it

The wrong variants:";

impl Part {
    const ALL: [Part; 4] = [Part::Drawing, Part::Through, Part::Panel, Part::Machine];

    fn name(self) -> &'static str {
        match self {
            Part::Drawing => "drawing",
            Part::Through => "plane through",
            Part::Panel => "panel",
            Part::Machine => "machine",
        }
    }

    fn groups(self, run: &mut Run) {
        match self {
            Part::Drawing => groups::all(run),
            Part::Through => through::groups::all(run),
            Part::Panel => panel::groups::all(run),
            Part::Machine => machine::groups::all(run),
        }
    }
}

/// One case, of any part.
enum One {
    Drawing(case::Case),
    Through(through::case::Case),
    Panel(panel::case::Case),
    Machine(Box<machine::case::Case>),
}

impl One {
    fn part(&self) -> Part {
        match self {
            One::Drawing(_) => Part::Drawing,
            One::Through(_) => Part::Through,
            One::Panel(_) => Part::Panel,
            One::Machine(_) => Part::Machine,
        }
    }

    fn read(text: &str) -> Result<One, String> {
        let text = text.trim_start();
        if text.starts_with("machine") {
            Ok(One::Machine(Box::new(text.parse()?)))
        } else if text.starts_with("through") {
            Ok(One::Through(text.parse()?))
        } else if text.starts_with("panel") {
            Ok(One::Panel(text.parse()?))
        } else {
            Ok(One::Drawing(text.parse()?))
        }
    }
}

struct Asked {
    parts: Vec<Part>,
    seeds: Vec<u64>,
    calls: Option<u64>,
    requests: Option<u64>,
    panels: Option<u64>,
    programs: Option<u64>,
    minutes: u64,
    trace: bool,
    broken: Option<Slip>,
    self_check: bool,
    case: Option<One>,
}

fn clock_seed() -> u64 {
    let now = SystemTime::now().duration_since(UNIX_EPOCH).map_or(0, |d| d.as_nanos() as u64);
    kit::rng::Rng::new(now).next() % 1_000_000_000_000
}

impl Asked {
    /// What a command line without words asks.
    fn all() -> Asked {
        Asked {
            parts: Part::ALL.to_vec(),
            seeds: vec![1],
            calls: None,
            requests: None,
            panels: None,
            programs: None,
            minutes: 0,
            trace: false,
            broken: None,
            self_check: false,
            case: None,
        }
    }

    /// The counts, where they are given.
    fn counts(&self, run: &mut Run) {
        run.calls = self.calls.unwrap_or(run.calls);
        run.requests = self.requests.unwrap_or(run.requests);
        run.panels = self.panels.unwrap_or(run.panels);
        run.programs = self.programs.unwrap_or(run.programs);
    }
}

fn asked() -> Result<Asked, String> {
    let mut asked = Asked::all();
    let mut args = Args::from_env()?;
    while let Some(arg) = args.next() {
        let (Arg::Option(word) | Arg::Plain(word)) = arg;
        match word.as_str() {
            "--seed" => {
                let text = args.value()?;
                asked.seeds = if text == "random" { vec![1, clock_seed()] } else { vec![number(&text)?] };
            }
            "--drawing" => asked.parts = vec![Part::Drawing],
            "--through" => asked.parts = vec![Part::Through],
            "--panel" => asked.parts = vec![Part::Panel],
            "--machine" => asked.parts = vec![Part::Machine],
            "--calls" => asked.calls = Some(args.number()?),
            "--requests" => asked.requests = Some(args.number()?),
            "--panels" => asked.panels = Some(args.number()?),
            "--programs" => asked.programs = Some(args.number()?),
            "--minutes" => asked.minutes = args.number()?,
            "--trace" => asked.trace = true,
            "--self-check" => asked.self_check = true,
            "--broken" => {
                let name = args.value()?;
                let slip = SLIPS.iter().find(|(known, _)| *known == name);
                asked.broken = Some(slip.ok_or(format!("no such variant: {name}"))?.1);
            }
            "--case" => asked.case = Some(One::read(&args.value()?)?),
            _ => return Err(format!("unknown: {word}")),
        }
    }
    // A wrong variant, or a single case, is of one part.
    if let Some(slip) = asked.broken {
        asked.parts = vec![slip.part()];
    }
    if let Some(case) = &asked.case {
        asked.parts = vec![case.part()];
    }
    Ok(asked)
}

fn main() -> ExitCode {
    let asked = match asked() {
        Ok(asked) => asked,
        Err(problem) => {
            let names: Vec<&str> = SLIPS.iter().map(|(name, _)| *name).collect();
            eprintln!("{problem}\n{USAGE} {}", names.join(", "));
            return ExitCode::from(2);
        }
    };
    let fine = if asked.self_check { self_check(&asked) } else { comparison(&asked) };
    ExitCode::from(if fine { 0 } else { 1 })
}

fn comparison(asked: &Asked) -> bool {
    let subject = asked.broken.map_or(Subject::Engine, Subject::Broken);
    match asked.broken {
        None => println!("engine from {}", merikohin::LINKED_FROM),
        Some(_) => println!("a wrong variant in the engine's place"),
    }
    let mut fine = true;
    for &part in &asked.parts {
        let (mut comparisons, mut mismatches) = (0, 0);
        for &seed in &asked.seeds {
            let mut run = Run::new(subject, seed);
            asked.counts(&mut run);
            run.minutes = asked.minutes;
            run.trace = asked.trace;
            if asked.broken.is_some() {
                run.shown_at_most = 1;
            }
            match &asked.case {
                Some(case) => run.group("one case", |run, _| {
                    match case {
                        One::Drawing(case) => run.case(case).is_some(),
                        One::Through(case) => run.through(case).is_some(),
                        One::Panel(case) => run.panel(case).is_some(),
                        One::Machine(case) => run.machine(case).is_some(),
                    };
                }),
                None => {
                    println!("{}, seed {seed}", part.name());
                    part.groups(&mut run);
                }
            }
            comparisons += run.comparisons;
            mismatches += run.mismatches;
        }
        println!("{}: {comparisons} comparisons, {mismatches} mismatches", part.name());
        fine &= mismatches == 0;
    }
    fine
}

/// Every wrong variant in the engine's place, in turn.
fn self_check(asked: &Asked) -> bool {
    let (mut caught, mut all) = (0, 0);
    for (name, slip) in SLIPS {
        let part = slip.part();
        if !asked.parts.contains(&part) {
            continue;
        }
        let mut run = Run::new(Subject::Broken(slip), asked.seeds[0]);
        (run.calls, run.requests, run.panels, run.programs) = (5_000, 5_000, 2_000, 500);
        asked.counts(&mut run);
        run.quiet = true;
        part.groups(&mut run);
        let verdict = if run.mismatches > 0 { "caught" } else { "NOT CAUGHT" };
        println!(
            "broken {name}: {verdict}, {} comparisons, {} mismatches; in: {}",
            run.comparisons,
            run.mismatches,
            run.caught_by.join("; ")
        );
        all += 1;
        caught += usize::from(run.mismatches > 0);
    }
    println!("self-check: {caught} of {all} broken variants caught");
    caught == all
}
