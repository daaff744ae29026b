//! The subcommand `board` with --json and --csv: every member is that of the reference program's board or of the files'
//! headers and trailers, whatever the language is.

use std::process::Output;

use conformance::lines;
use reference::days;
use reference::random::Random;
use reference::Lane;

use crate::expected::{words, Expected, Input, Refused};
use crate::folder::Folder;
use crate::json::{parse, Value};
use crate::process::{hollytrot, output_of};
use crate::random_day::day;
use crate::text::issuer_text;

fn object<const N: usize>(members: [(&str, Value); N]) -> Value {
    let owned = members.map(|(key, value)| (key.to_string(), value));
    Value::Object(owned.to_vec())
}

fn text(text: impl Into<String>) -> Value {
    Value::Text(text.into())
}

/// The number of a field of digits, by its places.
fn number(record: &[u8], first: usize, last: usize) -> Value {
    let field = &record[first - 1..last];
    let add = |sum: u64, &digit: &u8| sum * 10 + u64::from(digit - b'0');
    Value::Number(field.iter().fold(0, add))
}

/// The text of a field in ISO 8859-1, by its places.
fn latin(record: &[u8], first: usize, last: usize) -> String {
    record[first - 1..last].iter().map(|&c| c as char).collect()
}

/// The entry of an accepted return file: what its A says of it, and its Z of its records.
fn file_value(bytes: &[u8]) -> Value {
    let size = if bytes.ends_with(b"\r\n") { 152 } else { 150 };
    let trailer = &bytes[bytes.len() - size..];
    let date = latin(bytes, 66, 73);
    let (year, month, day) = (&date[..4], &date[4..6], &date[6..]);
    object([
        ("bank", text(latin(bytes, 43, 45))),
        ("agreement", text(latin(bytes, 3, 22).trim_end_matches(' '))),
        ("date", text(format!("{year}-{month}-{day}"))),
        ("sequence", number(bytes, 74, 79)),
        ("version", number(bytes, 80, 81)),
        ("records", number(trailer, 2, 7)),
        ("centavos", number(trailer, 8, 24)),
    ])
}

fn refusal_value(refused: &Refused) -> Value {
    object([
        ("number", Value::Number(refused.number)),
        ("words", text(words(refused.number))),
        ("place", Value::Number(refused.place)),
        ("record", Value::Number(refused.record)),
        ("byte", Value::Number(refused.byte)),
        ("from", Value::Number(refused.from)),
    ])
}

fn input_value(name: &str, input: &Input, bytes: &[u8]) -> Value {
    let files = input.files.iter().map(|&(from, to)| &bytes[from..to]);
    object([
        ("name", text(name)),
        ("files", Value::List(files.map(file_value).collect())),
        ("records", Value::Number(input.records)),
        (
            "refusal",
            input.refused.as_ref().map_or(Value::Null, refusal_value),
        ),
    ])
}

fn lane_value(lane: &Lane) -> Value {
    object([
        ("issuer", text(issuer_text(lane.issuer))),
        ("segment", Value::Number(lane.issuer.segment)),
        ("number", Value::Number(lane.issuer.number)),
        ("payments", Value::Number(lane.payments)),
        ("centavos", Value::Number(lane.centavos)),
        ("tariff", Value::Number(lane.tariff)),
    ])
}

/// The whole JSON of inputs with these names.
fn json_value(names: &[String], inputs: &[&[u8]], expected: &Expected) -> Value {
    let board = expected.session.board();
    let (number, place) = expected.answer();
    let named = names.iter().zip(&expected.inputs).zip(inputs);
    let inputs = named.map(|((name, input), bytes)| input_value(name, input, bytes));
    object([
        ("format", Value::Number(1)),
        ("inputs", Value::List(inputs.collect())),
        ("answer", Value::Number(number)),
        ("place", Value::Number(place)),
        ("records", Value::Number(expected.records())),
        ("files", Value::Number(expected.files())),
        (
            "total",
            object([
                ("payments", Value::Number(board.payments)),
                ("centavos", Value::Number(board.centavos)),
                ("tariff", Value::Number(board.tariff)),
            ]),
        ),
        (
            "lanes",
            Value::List(board.in_use().iter().map(lane_value).collect()),
        ),
    ])
}

fn csv(expected: &Expected) -> String {
    let mut csv = "issuer,segment,number,payments,centavos,tariff\n".to_string();
    for lane in expected.session.board().in_use() {
        csv += &format!(
            "{},{},{},{},{},{}\n",
            issuer_text(lane.issuer),
            lane.issuer.segment,
            lane.issuer.number,
            lane.payments,
            lane.centavos,
            lane.tariff
        );
    }
    csv
}

/// Standard output as text, after the refusals' lines and the status are found to be right.
#[track_caller]
fn text_of(output: &Output, names: &[String], expected: &Expected, keep_going: bool) -> String {
    let names: Vec<&str> = names.iter().map(String::as_str).collect();
    assert_eq!(
        String::from_utf8_lossy(&output.stderr),
        expected.lines(&names, keep_going)
    );
    assert_eq!(output.status.code(), Some(expected.status()));
    String::from_utf8(output.stdout.clone()).expect("UTF-8")
}

/// Both formats of these inputs, each a file of its own.
#[track_caller]
fn assert_formats(folder: &Folder, inputs: &[&[u8]], keep_going: bool) {
    let expected = Expected::of(inputs, keep_going, &[]);
    let names: Vec<String> = (0..inputs.len()).map(|i| format!("{i}.ret")).collect();
    for (name, bytes) in names.iter().zip(inputs) {
        folder.write(name.as_bytes(), bytes);
    }
    let run = |format: &str| {
        let mut command = hollytrot(["board", format]);
        command.args(keep_going.then_some("--keep-going"));
        let output = folder.of(command.args(&names)).output();
        text_of(&output.expect("its end"), &names, &expected, keep_going)
    };
    let found = parse(&run("--json"));
    assert_eq!(found, Ok(json_value(&names, inputs, &expected)));
    assert_eq!(run("--csv"), csv(&expected));
}

#[test]
fn formats_of_days() {
    let folder = Folder::new("formats_of_days");
    for i in 0..80 {
        assert_formats(&folder, &[&day(i)], false);
    }
}

/// Days of some megabytes: an A may be read in one part of the input and its Z in a later one.
#[test]
fn formats_of_long_days() {
    let folder = Folder::new("formats_of_long_days");
    for i in 0..6 {
        let random = &mut Random::new(i);
        let form = lines::form(random);
        let mut bytes = days::day_of(random, 60, 40, 1500, form)
            .expect("a good day")
            .bytes;
        if i > 1 {
            let start = bytes.len() / 2;
            days::damage(random, &mut bytes[start..]);
        }
        assert_formats(&folder, &[&bytes], false);
    }
}

/// Several inputs, of which some are damaged, with and without --keep-going.
#[test]
fn formats_of_several_files() {
    let folder = Folder::new("formats_of_several_files");
    for i in 0..60 {
        let inputs: Vec<Vec<u8>> = (1..4).map(|j| day(100 * j + i)).collect();
        let inputs: Vec<&[u8]> = inputs.iter().map(Vec::as_slice).collect();
        assert_formats(&folder, &inputs, i % 3 != 0);
    }
}

/// JSON and CSV are for programs: no language changes them. In JSON the name of standard input is the command's word.
#[test]
fn formats_of_standard_input() {
    for i in [0, 4, 7] {
        let bytes = day(i);
        let expected = Expected::of(&[&bytes], false, &[]);
        let mut command = hollytrot(["board", "--json"]);
        let json = output_of(&mut command, |stdin| stdin.write_all(&bytes)).stdout;
        assert_eq!(
            parse(&String::from_utf8_lossy(&json)),
            Ok(json_value(&["-".to_string()], &[&bytes], &expected))
        );
        for format in ["--json", "--csv"] {
            let run = |language: &str| {
                let mut command = hollytrot(["board", format, "--lang", language]);
                output_of(&mut command, |stdin| stdin.write_all(&bytes)).stdout
            };
            assert_eq!(run("pt"), run("en"));
        }
    }
}
