//! Lists of agreed issuers, --agreed: right ones decide as in the reference program, wrong ones are 25 at their line.

use conformance::lines;
use reference::agreed::{check, key, AGREED};
use reference::days;
use reference::page::page_of;
use reference::random::Random;
use reference::Issuer;

use crate::expected::{words, Expected};
use crate::folder::Folder;
use crate::process::{assert_output, hollytrot, output_of, CODE, LINE};
use crate::text::issuer_text;

/// The text of a key as a line of a list has it. A key that is no issuer's gives a line that is no issuer's.
fn entry(key: u64) -> String {
    issuer_text(Issuer {
        segment: key / 100_000_000,
        number: key % 100_000_000,
    })
}

/// A list as a file, with the mark of UTF-8, blanks, CR and blank lines where they are passed over, and the line of
/// each entry.
fn file_of(random: &mut Random, list: &[u64]) -> (String, Vec<usize>) {
    const ENDS: [&str; 6] = ["\n", "\n", "\r\n", " \n", "\t \r\n", "\n\n \r\n"];
    let mut text = ["", "\n", " \t\n", "\u{feff}"][random.index(4)].to_string();
    let mut at = Vec::new();
    for &key in list {
        at.push(1 + text.matches('\n').count());
        text += &entry(key);
        text += ENDS[random.index(ENDS.len())];
    }
    if random.once_in(4) && text.ends_with('\n') {
        text.pop();
    }
    (text, at)
}

/// The line about a list that goes wrong here.
fn refusal(name: &str, line: usize) -> String {
    format!("{name}: refused 25 ({}) at line {line}\n", words(25))
}

/// Days whose agreed issuers all have due dates, some of them damaged, and days of any dates under any list.
#[test]
fn boards_under_lists() {
    let folder = Folder::new("boards_under_lists");
    let mut undated = 0;
    for i in 0..150 {
        let random = &mut Random::new(i);
        let issuers = days::issuers(random, 20);
        let list = days::agreed(random, &issuers);
        let made_under: &[u64] = if random.once_in(2) { &list } else { &[] };
        let form = lines::form(random);
        let mut bytes = days::day_under(random, &issuers, 4, 12, form, made_under)
            .expect("a good day")
            .bytes;
        if random.once_in(2) {
            days::damage(random, &mut bytes);
        }
        let expected = Expected::of(&[&bytes], false, &list);
        undated += usize::from(expected.answer().0 == 11);
        folder.write(b"list", file_of(random, &list).0.as_bytes());
        let mut command = hollytrot(["board", "--agreed", "list"]);
        let output = output_of(folder.of(&mut command), |stdin| stdin.write_all(&bytes));
        let lines = expected.lines(&["standard input"], false);
        assert_output(&output, &expected.page(), &lines, expected.status());
    }
    assert!(undated > 30, "{undated}");
}

/// A wrong list is refused at the first line behind which it is wrong, before anything else is done.
#[test]
fn wrong_lists() {
    let folder = Folder::new("wrong_lists");
    for i in 0..60 {
        let random = &mut Random::new(i);
        let list = days::wrong_agreed(random, &[]);
        let (text, at) = file_of(random, &list);
        folder.write(b"list", text.as_bytes());
        let wrong = (1..=list.len()).find(|&end| check(&list[..end]).is_err());
        let line = at[wrong.expect("a wrong list") - 1];
        for words in [
            &["board", "missing.ret"][..],
            &["line", LINE],
            &["code", CODE],
        ] {
            let mut command = hollytrot(words);
            let output = folder.of(command.args(["--agreed", "list"])).output();
            let output = output.expect("its end");
            assert_output(&output, b"", &refusal("list", line), 1);
        }
    }
}

/// Lines that are no text of an issuer.
const NO_ISSUERS: [&[u8]; 24] = [
    b"1",
    b"-",
    b"1-",
    b"1-365",
    b"1-36590",
    b"01-3659",
    b"1-03659",
    b"6-3304126",
    b"6-330412600",
    b"0-3659",
    b"8-3659",
    b" 1-3659",
    b"1 - 3659",
    b"1-3659,2-0001",
    b"1-3659 2-0001",
    b"1-3659\tOne",
    b"+1-3659",
    b"1--659",
    b"1-36 9",
    b"1-3659\0",
    b"\0",
    b"\xef\xbb\xbf1-3659",
    b"\xff",
    b"# 1-3659",
];

/// Lists at the edges: empty, full, one too many, and very long; lines that are no text of an issuer.
#[test]
fn lists_at_the_edges() {
    let folder = Folder::new("lists_at_the_edges");
    let day = days::day(&mut Random::new(1), 5, 2, 9).expect("a good day");
    folder.write(b"day.ret", &day.bytes);
    let run = |list: &[u8]| {
        folder.write(b"list", list);
        let mut command = hollytrot(["board", "--agreed=list", "day.ret"]);
        folder.of(&mut command).output().expect("its end")
    };
    let page = page_of(&day.bytes);
    let numbered = |count: u64| -> String {
        let of = |number| Issuer { segment: 9, number };
        (0..count).map(|i| entry(key(of(i))) + "\n").collect()
    };
    let full = numbered(AGREED as u64);
    let blanks = " \r\n".repeat(100_000);
    for right in [
        "",
        "\n",
        "\r\n \t\n",
        &full,
        &(blanks.clone() + &full),
        &blanks,
    ] {
        assert_output(&run(right.as_bytes()), &page, "", 0);
    }
    for many in [65, 66, 10_000] {
        let output = run(numbered(many).as_bytes());
        assert_output(&output, b"", &refusal("list", 65), 1);
    }
    let long = [b"9-0000".as_slice(), &[b' '; 1 << 20], b"1"].concat();
    for wrong in NO_ISSUERS.into_iter().chain([&long[..]]) {
        let list = [b"9-0001\n\n", wrong, b"\n9-0002\n"].concat();
        assert_output(&run(&list), b"", &refusal("list", 3), 1);
    }
}
