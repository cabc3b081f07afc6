//! Asks the proved program and the plain one the same questions about the same networks, compares all that they answer, and
//! prints how long each took. With the argument `--compare` nothing is timed. A number says how many runs there are (15), and a
//! word after it picks the networks and questions whose names it is part of. Of the plain program, netcheck's text is not asked for.

mod clock;
mod inputs;
mod networks;
#[allow(dead_code)]
mod plain;
mod proved;
mod sides;

use clock::took;
use inputs::Inputs;
use networks::{Case, Source, cases};
use proved::Proved;
use sides::{Answer, Buffers, Plain, Side};
use std::hint::black_box;
use std::time::Duration;

#[derive(Clone, Copy, PartialEq, Eq)]
pub enum Question {
    Make,
    Trace,
    Check,
    Routes,
    File,
    Drain,
    JudgeNumbers,
    JudgeLoad,
    Put,
}

const QUESTIONS: [Question; 9] = [
    Question::Make,
    Question::Trace,
    Question::Check,
    Question::Routes,
    Question::File,
    Question::Drain,
    Question::JudgeNumbers,
    Question::JudgeLoad,
    Question::Put,
];

impl Question {
    fn name(self) -> &'static str {
        match self {
            Question::Make => "make",
            Question::Trace => "trace",
            Question::Check => "check",
            Question::Routes => "routes",
            Question::File => "file",
            Question::Drain => "drain",
            Question::JudgeNumbers => "judge numbers",
            Question::JudgeLoad => "judge load",
            Question::Put => "put",
        }
    }

    // Of a Spidergon three questions are asked. A free table is drained and its numbers are judged, and of a blocked one the load. Packets
    // are put where there are many entries.
    fn is_asked(self, case: &Case, inputs: &Inputs) -> bool {
        match (self, &case.source) {
            (Question::Trace | Question::Check | Question::Routes, _) => true,
            (_, Source::Spidergon(_)) => false,
            (Question::Make | Question::File, _) => true,
            (Question::Drain | Question::JudgeNumbers, _) => !inputs.blocked,
            (Question::JudgeLoad, _) => inputs.blocked,
            (Question::Put, Source::Table(net)) => net.entries.len() >= usize::from(net.channels),
        }
    }

    // How often the table is made before the answers, where a question is asked `again` times more than once.
    fn makings(self, again: u32) -> u32 {
        match self {
            Question::Make | Question::Trace | Question::Check | Question::Routes => 1,
            Question::File => 0,
            Question::Drain | Question::JudgeNumbers | Question::JudgeLoad | Question::Put => again + 1,
        }
    }
}

// Asks once of a table, with all that a question changes as the inputs have it.
fn ask_once(side: &dyn Side, source: &Source, inputs: &Inputs, question: Question, b: &mut Buffers) -> Answer {
    b.load[..inputs.load.len()].copy_from_slice(&inputs.load);
    match (source, question) {
        (Source::Table(net), Question::Drain) => side.table_drain(net, b),
        (Source::Table(net), Question::JudgeNumbers) => {
            b.numbers[..inputs.numbers.len()].copy_from_slice(&inputs.numbers);
            side.table_judge_numbers(net, b)
        }
        (Source::Table(net), Question::JudgeLoad) => side.table_judge_load(net, b),
        (Source::Table(net), Question::Put) => {
            b.load.fill(None);
            side.table_put(net, &net.entries, b)
        }
        (_, Question::File) => side.judge_file(&inputs.file, b),
        _ => unreachable!("one call asks this many times"),
    }
}

fn ask(side: &dyn Side, case: &Case, inputs: &Inputs, question: Question, again: u32, b: &mut Buffers) -> Answer {
    match (black_box(&case.source), question) {
        (Source::Spidergon(size), Question::Trace) => side.spidergon_trace(*size, again, b),
        (Source::Spidergon(size), Question::Check) => side.spidergon_check(*size, again, b),
        (Source::Spidergon(size), Question::Routes) => side.spidergon_routes(*size, again, b),
        (Source::Table(net), Question::Make) => side.table_make(net, again),
        (Source::Table(net), Question::Trace) => side.table_trace(net, again, b),
        (Source::Table(net), Question::Check) => side.table_check(net, again, b),
        (Source::Table(net), Question::Routes) => side.table_routes(net, again, b),
        (source, _) => {
            for _ in 0..again {
                black_box(ask_once(side, source, inputs, question, b));
            }
            ask_once(side, source, inputs, question, b)
        }
    }
}

fn time(side: &dyn Side, case: &Case, inputs: &Inputs, question: Question, again: u32, b: &mut Buffers) -> Duration {
    took(|| {
        black_box(ask(side, case, inputs, question, again, b));
    })
}

// The time of making the table so many times.
fn time_makings(side: &dyn Side, case: &Case, makings: u32) -> Duration {
    took(|| {
        if let Source::Table(net) = &case.source {
            for _ in 0..makings {
                black_box(side.table_make(black_box(net), 0));
            }
        }
    })
}

// The time of one answer in microseconds, without that of making the table. Of tables, `again` are made beyond the first, which the records
// are put together for.
fn time_once(side: &dyn Side, case: &Case, inputs: &Inputs, question: Question, again: u32, b: &mut Buffers) -> f64 {
    let whole = time(side, case, inputs, question, again, b).as_secs_f64();
    let before = time_makings(side, case, question.makings(again)).as_secs_f64();
    let answers = match question {
        Question::Make => again,
        _ => again + 1,
    };
    (whole - before) * 1e6 / f64::from(answers)
}

// How often a question is asked again in a run: for about 40 milliseconds.
fn calibrate(case: &Case, inputs: &Inputs, question: Question, b: &mut Buffers) -> u32 {
    let mut again = 1;
    while again < 16_384 && time(&Plain, case, inputs, question, again, b) < Duration::from_millis(40) {
        again *= 2;
    }
    again
}

// The times of both sides and their ratios, proved to plain, run by run.
struct Times {
    proved: Vec<f64>,
    plain: Vec<f64>,
    ratios: Vec<f64>,
}

impl Times {
    fn new() -> Times {
        Times { proved: Vec::new(), plain: Vec::new(), ratios: Vec::new() }
    }

    fn add(&mut self, proved: f64, plain: f64) {
        self.proved.push(proved);
        self.plain.push(plain);
        self.ratios.push(proved / plain);
    }

    // Puts each list into rising order: the least is the first, and the median stands in the middle.
    fn sort(&mut self) {
        for times in [&mut self.proved, &mut self.plain, &mut self.ratios] {
            times.sort_by(f64::total_cmp);
        }
    }
}

// Times both sides. Which is first changes from run to run.
fn measure(case: &Case, inputs: &Inputs, question: Question, runs: usize) -> Times {
    let mut buffers = Buffers::new(case.channels.into(), case.pairs(), 0);
    let again = calibrate(case, inputs, question, &mut buffers);
    let mut times = Times::new();
    for run in 0..runs {
        let mut of = |side: &dyn Side| time_once(side, case, inputs, question, again, &mut buffers);
        if run % 2 == 0 {
            let proved = of(&Proved);
            times.add(proved, of(&Plain));
        } else {
            let plain = of(&Plain);
            times.add(of(&Proved), plain);
        }
    }
    times.sort();
    times
}

// Both sides have to answer the same, down to the last word of each buffer.
fn compare(case: &Case, inputs: &Inputs, question: Question) -> Answer {
    let mut first = Buffers::new(case.channels.into(), case.pairs(), 5);
    let mut second = first.clone();
    let proved = ask(&Proved, case, inputs, question, 0, &mut first);
    let plain = ask(&Plain, case, inputs, question, 0, &mut second);
    let same = proved == plain && first == second;
    assert!(same, "{}, {}: {proved:?} and {plain:?} differ, or the buffers do", case.name, question.name());
    proved
}

fn told(answer: Answer) -> String {
    match answer {
        Answer::Made => String::from("made"),
        Answer::Trace { ones } => format!("{ones} allowed"),
        Answer::Check { blocked: true, held, .. } => format!("blocked, {held} held"),
        Answer::Check { greatest, .. } => format!("free, greatest {greatest}"),
        Answer::Routes { arriving: true, .. } => String::from("arriving"),
        Answer::Routes { held, .. } => format!("{held} held"),
        Answer::Drained { calls } => format!("{calls} calls"),
        Answer::Holds => String::from("holds"),
        Answer::Offends { channel, place } => format!("({channel}, {place}) offends"),
        Answer::NoPacket => String::from("no packet"),
        Answer::Puts { accepted } => format!("{accepted} accepted"),
        Answer::Judged { blocked: true } => String::from("blocked"),
        Answer::Judged { blocked: false } => String::from("free"),
        Answer::Refused { number, line, field } => format!("{number}, line {line}, field {field}"),
    }
}

const HEAD: &str = "\
| network | channels × places | question | answer | proved, µs | plain, µs | ratio | its middle half | of the least |
|---|---|---|---|---|---|---|---|---|";

// The line of the table that tells the times.
fn line(case: &Case, question: Question, answer: Answer, times: &Times) -> String {
    let runs = times.ratios.len();
    format!(
        "| {} | {} × {} | {} | {} | {:.1} | {:.1} | {:.2} | {:.2} to {:.2} | {:.2} |",
        case.name,
        case.channels,
        case.places,
        question.name(),
        told(answer),
        times.proved[runs / 2],
        times.plain[runs / 2],
        times.ratios[runs / 2],
        times.ratios[runs / 4],
        times.ratios[runs * 3 / 4],
        times.proved[0] / times.plain[0],
    )
}

// What the program is asked to do.
struct Arguments {
    // how many runs are timed; none where both sides are only compared
    runs: Option<usize>,
    // part of the name of each network and question that is meant
    wanted: String,
}

impl Arguments {
    fn read() -> Arguments {
        let mut words = std::env::args().skip(1);
        let runs = match words.next().as_deref() {
            Some("--compare") => None,
            word => Some(word.and_then(|word| word.parse().ok()).unwrap_or(15).max(1)),
        };
        Arguments { runs, wanted: words.next().unwrap_or_default() }
    }

    fn wants(&self, case: &Case, question: Question) -> bool {
        format!("{}, {}", case.name, question.name()).contains(&self.wanted)
    }
}

// Compares the two sides, and times them if that is asked. Answers the line to print.
fn examine(case: &Case, inputs: &Inputs, question: Question, runs: Option<usize>) -> String {
    let answer = compare(case, inputs, question);
    if question == Question::File {
        for damaged in inputs.damaged() {
            compare(case, &damaged, question);
        }
    }
    match runs {
        Some(runs) => line(case, question, answer, &measure(case, inputs, question, runs)),
        None => format!("{}, {}: {}", case.name, question.name(), told(answer)),
    }
}

fn main() {
    let arguments = Arguments::read();
    if arguments.runs.is_some() {
        println!("{HEAD}");
    }
    let mut questions = 0;
    for case in cases() {
        let inputs = Inputs::of(&case);
        for question in QUESTIONS {
            if arguments.wants(&case, question) && question.is_asked(&case, &inputs) {
                println!("{}", examine(&case, &inputs, question, arguments.runs));
                questions += 1;
            }
        }
    }
    eprintln!("{questions} questions: the two sides gave the same answers, tables, numbers, loads and work areas");
}
