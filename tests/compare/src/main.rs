//! Compares the proved planner with the independent implementation in `reference`, on instances from a seed.
//!
//!     compare [--seconds S] [--whole] [--seed N] [--case K] [--first] [--sheets FILE [--most-steps N]]
//!     compare --show SHEET | --steps SHEET | --finish SHEET [--allowance N]
//!
//! It stops after S seconds (60); with `--whole` it goes on until 20,000 instances of 1 to 6 items and 500 of 7 to 10 were compared.
//! It prints what was compared. `--case` runs one instance alone; `--first` stops at the first difference. The exit status is 1 if
//! there is any. `--show` prints what the program has to print for a sheet, by the independent implementation alone; `--steps` each of
//! its steps too, with the relations left; `--finish` what examples/finish.c has to print.

#[macro_use]
mod signatures;
mod finishes;
#[allow(dead_code)]
mod layout;
mod library;
mod parts;
mod random;
#[allow(dead_code)]
mod reference;
mod report;
mod show;
mod table;
mod tiny;
mod values;

use random::Random;
use report::Report;
use std::time::Instant;

const SMALL: &str = "instances of 1 to 6 items";
const LARGE: &str = "instances of 7 to 10 items";
const WHOLE_SMALL: u64 = 20_000;
const WHOLE_LARGE: u64 = 500;

struct Options {
    seconds: f64,
    whole: bool,
    seed: u64,
    case: Option<u64>,
    first: bool,
    sheets: Option<String>,
    most_steps: u32,
    show: Option<(String, String)>,
    allowance: u32,
}

fn options() -> Options {
    let mut options = Options {
        seconds: 60.0,
        whole: false,
        seed: 1,
        case: None,
        first: false,
        sheets: None,
        most_steps: 1_000,
        show: None,
        allowance: 1_000_000,
    };
    let mut words = std::env::args().skip(1);
    while let Some(word) = words.next() {
        let mut value = || words.next().unwrap_or_else(|| panic!("{word} needs a value"));
        match word.as_str() {
            "--seconds" => options.seconds = value().parse().expect("a number"),
            "--whole" => options.whole = true,
            "--seed" => options.seed = value().parse().expect("a number"),
            "--case" => options.case = Some(value().parse().expect("a number")),
            "--first" => options.first = true,
            "--show" | "--steps" | "--finish" => options.show = Some((value(), word)),
            "--allowance" => options.allowance = value().parse().expect("a number"),
            "--sheets" => options.sheets = Some(value()),
            "--most-steps" => options.most_steps = value().parse().expect("a number"),
            _ => panic!("no such option: {word}"),
        }
    }
    options
}

/// Every forty-first case is large.
fn one_case(report: &mut Report, seed: u64, case: u64) {
    let mut random = Random::new(seed, case);
    report.context = format!("seed {seed} case {case}");
    let large = case % 41 == 40;
    let items = match case % 100 {
        99 => 0,
        _ if large => random.between(7, 10),
        _ => random.between(1, 6),
    };
    report.count(match items {
        0 => "instances of no items",
        1..=6 => SMALL,
        _ => LARGE,
    });
    let instance = random::instance(&mut random, items);
    parts::everything(report, &mut random, &instance, if items > 6 { 60 } else { 400 });
}

/// The table, the sheets of a file, tiny halls; then cases until the time is over.
fn all_cases(report: &mut Report, options: &Options, began: Instant) {
    report.context = "the table".to_string();
    table::small_halls(report);
    table::rule_3(report);
    table::lags(report);
    table::greatest(report);
    table::walkways(report);
    table::turning(report);
    values::by_hand(report);
    values::walkways_by_hand(report);
    values::marks_by_hand(report);
    if let Some(file) = &options.sheets {
        let text = std::fs::read_to_string(file).expect("the file of sheets");
        table::from_file(report, &text, options.most_steps);
    }
    let mut random = Random::new(options.seed, u64::MAX);
    // Searches to their end: an error that was found need not let them end.
    if !(options.first && report.differences > 0) {
        finishes::by_hand(report);
    }
    if !(options.first && report.differences > 0) {
        report.context = "tiny halls".to_string();
        tiny::all(report, &mut random);
        tiny::with_lags(report, &mut random);
        tiny::with_walkways(report, &mut random);
        tiny::with_turning(report, &mut random);
    }
    for case in 0.. {
        let due = options.whole && (report.counted(SMALL) < WHOLE_SMALL || report.counted(LARGE) < WHOLE_LARGE);
        let over = began.elapsed().as_secs_f64() >= options.seconds;
        if over && !due || options.first && report.differences > 0 {
            break;
        }
        one_case(report, options.seed, case);
    }
}

fn main() {
    let options = options();
    if let Some((file, what)) = &options.show {
        let sheet = std::fs::read(file).expect("the sheet");
        return match what.as_str() {
            "--finish" => show::finish(&sheet, options.allowance),
            _ => show::run(&sheet, options.allowance, what == "--steps"),
        };
    }
    let began = Instant::now();
    let mut report = Report::new(if options.first { 1 } else { 5 });
    match options.case {
        Some(case) => one_case(&mut report, options.seed, case),
        None => all_cases(&mut report, &options, began),
    }
    report.print();
    println!(
        "compare: {} instances of 1 to 6 items and {} of 7 to 10 in {:.0} s, seed {}; {} differences",
        report.counted(SMALL),
        report.counted(LARGE),
        began.elapsed().as_secs_f64(),
        options.seed,
        report.differences
    );
    if report.differences > 0 {
        std::process::exit(1);
    }
}
