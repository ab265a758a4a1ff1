//! The command `second`: see `USAGE`.

use second::bench::{answered_shots, time_shots};
use second::bound::LongitudeBounds;
use second::card::Card;
use second::compare::{
    batch_answers, call_answers, equal_outputs, outcomes_of_a_batch, outcomes_of_calls,
    outcomes_of_sessions, random_batch, random_lines, random_runs, random_sessions,
};
use second::counts::{Counts, Outcome, LEAST};
use second::extremes::extremes;
use second::lines::joined;
use second::polynomial::Polynomial;
use second::question::{BatchQuestion, Choice, Editions, Pointing, Shot};
use second::random_calls::{random_calls, Start};
use second::refusal::Refusal;
use second::replay;
use second::session;
use second::sine::{Sine, STEPS};
use std::error::Error;
use std::io::{self, BufRead, Write};
use std::ops::RangeInclusive;
use std::process::{Command, ExitCode, Stdio};
use std::thread;

const USAGE: &str = "\
usage: second COMMAND, from standard input to standard output, a line for a line
  shots                       eleven numbers [E] -> az A zd Z ha H s S, or no N
  pointings                   eleven numbers, the horizontal angle [E] -> mark M, or no N
  editions                    fields 1 to 7 and 11 -> short S full F apart D bound B, or no N
  session                     document 01's session
  parts                       eleven numbers [E] -> every step by name
  longitude                   fields 1 to 7 and 11 [E] -> s, polynomial longitude, bound
  sine                        a -> Sin(a) Cos(a)
  angle                       x y -> angle(x, y)
  choice                      two lists -> refusal, which list, its length
  card                        fresh, old, hear, read, confirm, undo, shot, pointing -> result, card
  count-refusals              answers of the first four -> how often each was given
E is the edition of the Sun's series, 1 where it is left out
without input:
  random-shots SEED COUNT     lines of shots
  random-pointings SEED COUNT lines of pointings
  random-editions SEED COUNT  lines of editions
  random-lines SEED COUNT     the lines of a session, good and damaged
  random-calls START SEED COUNT   calls on cards, each from a START, fresh or old
  sine-extremes               how far Sin is from R * P, Sin^2 + Cos^2 from R^2 (a minute)
  bench-shots                 the shots that bench times, as lines of eleven numbers
  bench COUNT [sun|polaris]   nanoseconds per shot, of both bodies or one
  compare-shots SEED COUNT PROGRAM...     PROGRAM's answers to random-shots with these
  compare-pointings SEED COUNT PROGRAM... the same for random-pointings
  compare-editions SEED COUNT PROGRAM...  the same for random-editions
  compare-session SEED COUNT PROGRAM...   the same for sessions of random-lines, COUNT in all
  compare-calls START SEED COUNT PROGRAM...   the same for runs of random-calls, COUNT in all";

type Done = Result<(), Box<dyn Error>>;

/// Runs the command; its error goes to standard error.
fn main() -> ExitCode {
    let words: Vec<String> = std::env::args().skip(1).collect();
    let words: Vec<&str> = words.iter().map(String::as_str).collect();
    match dispatch(&words) {
        Ok(()) => ExitCode::SUCCESS,
        Err(error) => {
            eprintln!("second: {error}");
            ExitCode::FAILURE
        }
    }
}

/// Runs the command that the words name.
fn dispatch(words: &[&str]) -> Done {
    let sine = Sine::new();
    let mut card = Card::fresh();
    let polynomial = Polynomial::new();
    match *words {
        ["shots"] | ["random-shots", _, _] | ["compare-shots", _, _, _, ..] => {
            batch::<Shot>(&sine, words)
        }
        ["pointings"] | ["random-pointings", _, _] | ["compare-pointings", _, _, _, ..] => {
            batch::<Pointing>(&sine, words)
        }
        ["editions"] | ["random-editions", _, _] | ["compare-editions", _, _, _, ..] => {
            batch::<Editions>(&sine, words)
        }
        ["session"] => Ok(session::run(&sine, io::stdin().lock(), buffered_output())?),
        ["parts"] => each_vector(|line| replay::parts_line(&sine, line)),
        ["longitude"] => {
            let bounds = LongitudeBounds::new();
            each_vector(|line| replay::longitude_line(&sine, &polynomial, &bounds, line))
        }
        ["sine"] => each_vector(|line| replay::sine_line(&sine, line)),
        ["angle"] => each_vector(|line| replay::angle_line(&sine, line)),
        ["choice"] => each_vector(|line| replay::question_line::<Choice>(&sine, line)),
        ["card"] => each_vector(|line| replay::card_line(&sine, &mut card, line)),
        ["count-refusals"] => count_refusals(),
        ["sine-extremes"] => print_extremes(&sine, &polynomial),
        ["random-lines", seed, count] => print(&random_lines(&sine, seed.parse()?, count.parse()?)),
        ["random-calls", start, seed, count] => {
            print(&random_calls(&sine, start.parse()?, seed.parse()?, count.parse()?))
        }
        ["bench-shots"] => bench_shots(&sine),
        ["bench", count] => bench(&sine, count.parse()?, 1..=2),
        ["bench", count, "sun"] => bench(&sine, count.parse()?, 1..=1),
        ["bench", count, "polaris"] => bench(&sine, count.parse()?, 2..=2),
        ["compare-session", seed, count, ref program @ ..] => {
            compare_sessions(&sine, &random_sessions(seed.parse()?, count.parse()?), program)
        }
        ["compare-calls", start, seed, count, ref program @ ..] => {
            let runs = random_runs(seed.parse()?, count.parse()?);
            compare_calls(&sine, start.parse()?, &runs, program)
        }
        _ => Err(USAGE.into()),
    }
}

/// A command of a batch program's questions: answers their lines, prints random ones, or compares
/// another program's answers to these.
fn batch<Q: BatchQuestion>(sine: &Sine, words: &[&str]) -> Done {
    match *words {
        [_, seed, count] => print(&random_batch::<Q>(sine, seed.parse()?, count.parse()?)),
        [_, seed, count, ref program @ ..] => {
            compare_batch::<Q>(sine, seed.parse()?, count.parse()?, program)
        }
        _ => each_line(|line| replay::batch_line::<Q>(sine, line)),
    }
}

/// Standard output behind a buffer.
fn buffered_output() -> io::BufWriter<io::StdoutLock<'static>> {
    io::BufWriter::new(io::stdout().lock())
}

/// Writes bytes to standard output.
fn print(bytes: &[u8]) -> Done {
    Ok(io::stdout().lock().write_all(bytes)?)
}

/// Answers each line of standard input with one line.
fn each_line(mut answer: impl FnMut(&[u8]) -> String) -> Done {
    let mut output = buffered_output();
    for line in io::stdin().lock().split(b'\n') {
        writeln!(output, "{}", answer(&line?))?;
    }
    Ok(output.flush()?)
}

/// Answers each line as the vectors are written, `given = answer`; what stands behind a
/// `=` in the input is left out, and a comment is repeated.
fn each_vector(mut answer: impl FnMut(&[u8]) -> Result<String, Refusal>) -> Done {
    each_line(|line| {
        let end = line.windows(3).position(|three| three == b" = ").unwrap_or(line.len());
        let text = String::from_utf8_lossy(&line[..end]);
        if text.starts_with('#') {
            return text.into_owned();
        }
        format!("{text} = {}", answer(&line[..end]).unwrap_or_else(replay::refused))
    })
}

/// Prints the extremes of the table sine over the whole quadrant, and the angles at which they are.
fn print_extremes(sine: &Sine, polynomial: &Polynomial) -> Done {
    let found = extremes(sine, polynomial, 0..STEPS as i64);
    println!("|Sin - R P|, in thousandths: {} at {}", found.farthest.value, found.farthest.angle);
    println!("Sin^2 + Cos^2 - R^2, least: {} at {}", found.least.value, found.least.angle);
    println!("Sin^2 + Cos^2 - R^2, most: {} at {}", found.most.value, found.most.angle);
    Ok(())
}

/// Prints how often each refusal stands in standard input.
fn count_refusals() -> Done {
    let mut counts = Counts::default();
    for line in io::stdin().lock().lines() {
        counts.add(Outcome::of_line(&line?), 1);
    }
    print(format!("{counts}\n").as_bytes())
}

/// Prints the shots that `bench` times.
fn bench_shots(sine: &Sine) -> Done {
    let mut output = buffered_output();
    for fields in answered_shots(sine) {
        writeln!(output, "{}", joined(&fields))?;
    }
    Ok(output.flush()?)
}

/// Times `count` shots of the bodies in a range of field 10.
fn bench(sine: &Sine, count: u64, bodies: RangeInclusive<i64>) -> Done {
    let mut shots = answered_shots(sine);
    shots.retain(|fields| bodies.contains(&fields[9]));
    print(format!("{}\n", time_shots(sine, &shots, count)).as_bytes())
}

/// Compares another program's answers to random lines of numbers with these.
fn compare_batch<Q: BatchQuestion>(sine: &Sine, seed: u64, count: u64, program: &[&str]) -> Done {
    let input = random_batch::<Q>(sine, seed, count);
    let answers = batch_answers::<Q>(sine, &input);
    equal_outputs(&answers, &output_of(program, input)?)?;
    let counts = Counts::of_lines(&answers);
    print(format!("{counts}\n").as_bytes())?;
    Ok(counts.all_reached(&outcomes_of_a_batch::<Q>(), LEAST)?)
}

/// Compares another program's sessions, each from a fresh start, with these.
fn compare_sessions(sine: &Sine, sessions: &[(u64, u64)], program: &[&str]) -> Done {
    let asked = |seed, lines| {
        let input = random_lines(sine, seed, lines);
        let mut answers = Vec::new();
        session::run(sine, input.as_slice(), &mut answers)?;
        let counts = Counts::of_lines(&answers);
        Ok((input, answers, counts))
    };
    let counts = compare_runs("random-lines", sessions, asked, program)?;
    print(format!("sessions {}, {counts}\n", sessions.len()).as_bytes())?;
    Ok(counts.all_reached(&outcomes_of_sessions(), LEAST)?)
}

/// Compares another program's answers to runs of calls on cards, each from a start, with these.
fn compare_calls(sine: &Sine, start: Start, runs: &[(u64, u64)], program: &[&str]) -> Done {
    let asked = |seed, lines| {
        let input = random_calls(sine, start, seed, lines);
        let answers = call_answers(sine, &input);
        let counts = Counts::of_calls(&input, &answers);
        Ok((input, answers, counts))
    };
    let kind = format!("random-calls {}", start.word());
    let counts = compare_runs(&kind, runs, asked, program)?;
    print(format!("runs {}, {counts}\n", runs.len()).as_bytes())?;
    Ok(counts.all_reached(&outcomes_of_calls(), LEAST)?)
}

/// Compares another program's outputs with these: for the seed and the number of lines of each
/// run, `asked` gives the input, this program's answers and how often it met each outcome.
fn compare_runs(
    kind: &str,
    runs: &[(u64, u64)],
    asked: impl Fn(u64, u64) -> io::Result<(Vec<u8>, Vec<u8>, Counts)>,
    program: &[&str],
) -> Result<Counts, Box<dyn Error>> {
    let mut counts = Counts::default();
    for &(seed, lines) in runs {
        let (input, answers, met) = asked(seed, lines)?;
        equal_outputs(&answers, &output_of(program, input)?)
            .map_err(|error| format!("{kind} {seed} {lines}: {error}"))?;
        counts.add_all(&met);
    }
    Ok(counts)
}

/// What another program writes for an input.
fn output_of(program: &[&str], input: Vec<u8>) -> Result<Vec<u8>, Box<dyn Error>> {
    let [path, arguments @ ..] = program else {
        return Err(USAGE.into());
    };
    let mut child =
        Command::new(path).args(arguments).stdin(Stdio::piped()).stdout(Stdio::piped()).spawn()?;
    let mut pipe = child.stdin.take().ok_or("no standard input")?;
    let writer = thread::spawn(move || pipe.write_all(&input));
    let output = child.wait_with_output()?;
    writer.join().map_err(|_| "writing failed")??;
    if !output.status.success() {
        return Err(format!("the other program ended with {}", output.status).into());
    }
    Ok(output.stdout)
}
