//! The subcommands `line` and `code`: typed texts with what slips print between the digits, compared with the reference
//! program.

use std::process::Output;

use reference::agreed::key;
use reference::random::Random;
use reference::{barcode, days, line, Barcode, Refusal};

use crate::expected::words;
use crate::folder::Folder;
use crate::process::{assert_output, hollytrot, output_of, CODE, LINE};
use crate::text::{issuer_text, reais};

/// The two subcommands: the word, how many digits it asks for, and what the reference program says of them.
struct Kind {
    word: &'static str,
    asked: usize,
    decode: fn(&[u8], &[u64]) -> Result<Barcode, Refusal>,
    barcode: fn(&[u8]) -> Vec<u8>,
}

const KINDS: [Kind; 2] = [
    Kind {
        word: "line",
        asked: 48,
        decode: line::decode,
        barcode: |typed| {
            let mut code = [0; 44];
            line::barcode_from_line(typed, &[], &mut code).expect("an accepted line");
            code.to_vec()
        },
    },
    Kind {
        word: "code",
        asked: 44,
        decode: barcode::decode,
        barcode: <[u8]>::to_vec,
    },
];

/// What the command prints of texts, one after the other.
#[derive(Default)]
struct Said {
    stdout: String,
    stderr: String,
    count: usize,
    refused: usize,
}

impl Said {
    fn add(&mut self, kind: &Kind, typed: &str, agreed: &[u64]) {
        let places: Vec<usize> = (0..typed.len())
            .filter(|&i| !b" \t.-".contains(&typed.as_bytes()[i]))
            .collect();
        let digits: Vec<u8> = places.iter().map(|&i| typed.as_bytes()[i]).collect();
        self.count += 1;
        match (kind.decode)(&digits, agreed) {
            Ok(fields) => self.add_accepted(&fields, &(kind.barcode)(&digits)),
            Err(refusal) => self.add_refused(kind, typed, refusal, &places),
        }
    }

    fn add_accepted(&mut self, fields: &Barcode, code: &[u8]) {
        let value = match fields.kind {
            6 | 8 => reais(fields.value),
            _ => format!("quantity {}", fields.value),
        };
        let due = fields.due.map_or("-".to_string(), |due| {
            let digits = String::from_utf8_lossy(&due.digits()).into_owned();
            format!("{}-{}-{}", &digits[..4], &digits[4..6], &digits[6..])
        });
        let (issuer, code) = (issuer_text(fields.issuer()), String::from_utf8_lossy(code));
        self.stdout += &format!("accepted  {value}  issuer {issuer}  due {due}  code {code}\n");
    }

    fn add_refused(&mut self, kind: &Kind, typed: &str, refusal: Refusal, places: &[usize]) {
        let (number, count) = (refusal.number(), self.count);
        let said = format!(
            "{} {count}: refused {number} ({})",
            kind.word,
            words(number)
        );
        self.refused += 1;
        if number == 1 {
            let (found, asked) = (places.len(), kind.asked);
            self.stderr += &format!("{said}: found {found}, asked {asked}\n");
            return;
        }
        let place = places[refusal.place - 1];
        let shown = typed.replace('\t', " ").replace(char::is_control, "?");
        self.stderr += &format!("{said} at place {} as typed\n", place + 1);
        self.stderr += &format!("  {shown}\n  {}^\n", " ".repeat(place));
    }

    #[track_caller]
    fn assert_is(&self, output: &Output) {
        let status = i32::from(self.refused > 0);
        assert_output(output, self.stdout.as_bytes(), &self.stderr, status);
    }
}

/// The digits of a random line or barcode, sometimes damaged: digits, other bytes, letters of more than one byte,
/// neighbours swapped, or more or fewer of them.
fn digits(random: &mut Random, kind: &Kind) -> String {
    let mut digits = match kind.word {
        "line" => days::line(random).expect("a good line").to_vec(),
        _ => days::barcode(random).expect("a good barcode").to_vec(),
    };
    let i = random.index(digits.len());
    match random.below(10) {
        0 => digits[i] = random.digit(),
        1 => drop(days::swap(random, &mut digits)),
        2 => digits[i] = random.one_of(b"Oo l,/:\x01\x1b\x7f+"),
        3 => drop(digits.splice(i..digits.len().min(i + 2), "ã".bytes())),
        4 => drop(digits.splice(i..digits.len().min(i + 3), "€".bytes())),
        5 => digits.truncate(i.max(1)),
        6 => drop(digits.splice(i..i, (0..random.between(1, 3)).map(|_| b'7'))),
        _ => {}
    }
    String::from_utf8(digits).expect("UTF-8")
}

/// A text as a clerk types it: the digits, with separators anywhere between the characters.
fn typed(random: &mut Random, kind: &Kind) -> String {
    let often = [0, 2, 5, 12][random.index(4)];
    let mut typed = String::new();
    for digit in digits(random, kind).chars() {
        while often > 0 && random.once_in(often) {
            typed.push(random.one_of(b" \t.-") as char);
        }
        typed.push(digit);
    }
    typed
}

/// Texts of standard input, one a line, with lines of either end and blank ones among them.
#[test]
fn slips_of_standard_input() {
    for kind in &KINDS {
        let random = &mut Random::new(1);
        let mut said = Said::default();
        let mut input = String::new();
        for _ in 0..2000 {
            let text = typed(random, kind);
            let ends = ["\n", "\r\n", "\n\n", "\n \t\n", "\r\n\r\n"];
            input += &text;
            let end = ends[random.index(ends.len())];
            input += end;
            said.add(kind, &text, &[]);
            // a blank line is counted too
            said.count += end.matches('\n').count() - 1;
        }
        let output = output_of(&mut hollytrot([kind.word]), |stdin| {
            stdin.write_all(input.as_bytes())
        });
        said.assert_is(&output);
        assert!(
            said.refused > 500 && said.refused < 1500,
            "{}",
            said.refused
        );
    }
}

/// Texts that are arguments, under lists that have some of their issuers.
#[test]
fn slips_of_arguments() {
    let folder = Folder::new("slips_of_arguments");
    for (i, kind) in (0..40).zip(KINDS.iter().cycle()) {
        let random = &mut Random::new(i);
        let mut said = Said::default();
        let issuers = days::issuers(random, 6);
        let agreed: Vec<u64> = issuers[..3].iter().map(|&issuer| key(issuer)).collect();
        let entries = issuers[..3]
            .iter()
            .map(|&issuer| issuer_text(issuer) + "\n");
        folder.write(b"list", entries.collect::<String>().as_bytes());
        let mut command = hollytrot([kind.word, "--agreed=list", "--"]);
        for _ in 0..12 {
            let issuer = issuers[random.index(6)];
            // Made under the list or not: an agreed issuer has a due date, or has one by chance.
            let list: &[u64] = if random.once_in(2) { &agreed } else { &[] };
            let text = match kind.word {
                "line" => days::line_under(random, issuer, list).map(|line| line.to_vec()),
                _ => days::barcode_under(random, issuer, list).map(|code| code.to_vec()),
            };
            let text = String::from_utf8(text.expect("a good slip")).expect("digits");
            command.arg(&text);
            said.add(kind, &text, &agreed);
        }
        said.assert_is(&folder.of(&mut command).output().expect("its end"));
    }
}

/// Texts that no buffer holds: they are counted, and what is between the digits does not matter however long it is.
#[test]
fn slips_of_any_length() {
    let blanks = " \t.-".repeat(500_000);
    for (kind, right) in KINDS.iter().zip([LINE, CODE]) {
        let texts = [
            format!("{right}{blanks}"),
            format!("{blanks}{right}"),
            format!("{}{blanks}{}", &right[..7], &right[7..]),
            format!("{right}{blanks}1"),
            "1".repeat(3_000_000),
            right.repeat(2),
        ];
        let mut said = Said::default();
        texts.iter().for_each(|text| said.add(kind, text, &[]));
        let output = output_of(&mut hollytrot([kind.word, "-"]), |stdin| {
            texts.iter().try_for_each(|text| writeln!(stdin, "{text}"))
        });
        said.assert_is(&output);
        assert_eq!(said.refused, 3);
    }
}
