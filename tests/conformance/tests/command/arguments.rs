//! Arguments that make no sense, and file names with odd bytes.

use std::ffi::OsStr;
use std::os::unix::ffi::OsStrExt;

use reference::days;
use reference::page::page_of;
use reference::random::Random;

use crate::expected::Expected;
use crate::folder::Folder;
use crate::json::{parse, Value};
use crate::process::{assert_output, hollytrot, output_of, CODE, LINE};

/// Words that no call of the command has.
const WRONG: [&[&str]; 47] = [
    &[],
    &[""],
    &["-"],
    &["--"],
    &["--", "board", "day.ret"],
    &["bord", "day.ret"],
    &["BOARD", "day.ret"],
    &["boardd"],
    &["board "],
    &["day.ret"],
    &["--json"],
    &["--json", "board", "day.ret"],
    &["-h"],
    &["--versio"],
    &["--version", "day.ret"],
    &["--version=1"],
    &["--lang"],
    &["--lang", "fr"],
    &["--lang", "pt"],
    &["board", "--jsn", "day.ret"],
    &["board", "--jso", "day.ret"],
    &["board", "-json", "day.ret"],
    &["board", "-j", "day.ret"],
    &["board", "---json", "day.ret"],
    &["board", "--JSON", "day.ret"],
    &["board", "--json=", "day.ret"],
    &["board", "--json=yes", "day.ret"],
    &["board", "--json", "--json", "day.ret"],
    &["board", "--keep-going=1", "day.ret"],
    &["board", "--keep", "day.ret"],
    &["board", "day.ret", "--names"],
    &["board", "day.ret", "--agreed"],
    &["board", "day.ret", "--lang"],
    &["board", "--lang=", "day.ret"],
    &["board", "--lang", "pt_BR", "day.ret"],
    &["board", "--lang", "EN", "day.ret"],
    &["board", "--lang=en", "--lang=en", "day.ret"],
    &["board", "--agreed=list", "--agreed=list", "day.ret"],
    &["board", "--names", "list", "day.ret"],
    &["board", "--names", "list", "--json", "day.ret"],
    &["board", "--names", "list", "--csv", "day.ret"],
    &[
        "board",
        "--reais",
        "--names=list",
        "--names=list",
        "day.ret",
    ],
    &["line", "--json", LINE],
    &["line", "--keep-going", LINE],
    &["line", "--names", "list", LINE],
    &["code", "--csv", CODE],
    &["code", "--lang", "xx", CODE],
];

/// Status 2, nothing on standard output, and one line on standard error without a control byte.
#[track_caller]
fn assert_misused<Word: AsRef<OsStr>>(folder: &Folder, words: &[Word]) {
    let shown: Vec<&OsStr> = words.iter().map(AsRef::as_ref).collect();
    let output = folder.of(&mut hollytrot(words)).output().expect("its end");
    let error = &output.stderr;
    assert_eq!(output.status.code(), Some(2), "{shown:?}");
    assert_eq!(output.stdout, b"", "{shown:?}");
    assert!(error.starts_with(b"hollytrot: "), "{shown:?}");
    let is_end = |(i, &byte): (usize, &u8)| (byte == b'\n') == (i + 1 == error.len());
    assert!(error.iter().enumerate().all(is_end), "{shown:?}");
    let is_control = |&byte: &u8| byte == 127 || (byte < 32 && byte != b'\n');
    assert!(!error.iter().any(is_control), "{shown:?}");
}

/// A folder with a good day and a list of one issuer.
fn folder_of_day(name: &str) -> (Folder, Vec<u8>) {
    let folder = Folder::new(name);
    let bytes = days::day(&mut Random::new(1), 5, 2, 9)
        .expect("a good day")
        .bytes;
    folder.write(b"day.ret", &bytes);
    folder.write(b"list", b"1-3659\tOne\n");
    (folder, bytes)
}

#[test]
fn arguments_that_make_no_sense() {
    let (folder, _) = folder_of_day("arguments_that_make_no_sense");
    for words in WRONG {
        assert_misused(&folder, words);
    }
    let formats = ["--json", "--csv", "--html", "--reais"];
    for one in formats {
        for other in formats {
            assert_misused(&folder, &["board", one, "day.ret", other]);
        }
    }
}

/// Words with bytes that are no UTF-8, with control bytes, and longer than any buffer.
#[test]
fn arguments_with_odd_bytes() {
    let (folder, _) = folder_of_day("arguments_with_odd_bytes");
    let long = [b"--", &[b'x'; 100_000][..]].concat();
    let odd: [&[u8]; 6] = [
        b"--\xff",
        b"--\n",
        b"--\x1b[31m",
        b"-\x07",
        b"--json\x01",
        &long,
    ];
    for word in odd {
        let word = OsStr::from_bytes(word);
        assert_misused(&folder, &[word]);
        assert_misused(&folder, &[OsStr::new("board"), word]);
        let language = [b"--lang=", word.as_bytes()].concat();
        assert_misused(&folder, &[OsStr::new("code"), OsStr::from_bytes(&language)]);
    }
    for word in [b"b\xffard".as_slice(), b"bo\nard", &long[2..]] {
        assert_misused(&folder, &[OsStr::from_bytes(word)]);
    }
}

/// Options may be anywhere in front of `--`, with their values in either form.
#[test]
fn options_anywhere() {
    let (folder, bytes) = folder_of_day("options_anywhere");
    folder.write(b"--csv", &bytes);
    folder.write(b"empty", b"");
    let run = |words: &[&str]| {
        let output = folder.of(&mut hollytrot(words)).output().expect("its end");
        let error = String::from_utf8_lossy(&output.stderr).into_owned();
        assert_eq!((output.status.code(), error.as_str()), (Some(0), ""));
        output.stdout
    };
    let csv = run(&["board", "--csv", "day.ret"]);
    assert!(csv.starts_with(b"issuer,"));
    assert_eq!(csv, run(&["board", "day.ret", "--csv"]));
    assert_eq!(csv, run(&["board", "--csv", "--", "day.ret"]));
    assert_eq!(csv, run(&["board", "--csv", "--", "--csv"]));
    assert_eq!(csv, run(&["board", "empty", "--csv", "day.ret", "empty"]));
    assert_eq!(
        csv,
        run(&["board", "--agreed", "empty", "day.ret", "--csv"])
    );
    assert_eq!(csv, run(&["board", "--agreed=empty", "--csv", "day.ret"]));
    assert_eq!(csv, run(&["board", "--lang=pt", "--csv", "day.ret"]));
    assert_eq!(page_of(&bytes), run(&["board", "--", "--csv"]));
    let reais = run(&[
        "board",
        "day.ret",
        "--reais",
        "--names=list",
        "--lang",
        "en",
    ]);
    assert_eq!(
        reais,
        run(&["board", "--names", "list", "--reais", "day.ret"])
    );
}

/// Standard input is read if there is no file, for `-`, and not otherwise.
#[test]
fn standard_input_or_files() {
    let (folder, bytes) = folder_of_day("standard_input_or_files");
    for words in [&["board"][..], &["board", "-"], &["board", "--", "-"]] {
        let output = output_of(&mut hollytrot(words), |stdin| stdin.write_all(&bytes));
        assert_output(&output, &page_of(&bytes), "", 0);
    }
    let mut command = hollytrot(["board", "day.ret"]);
    let output = output_of(folder.of(&mut command), |stdin| stdin.write_all(b"bad"));
    assert_output(&output, &page_of(&bytes), "", 0);
}

/// The name of the first input in JSON.
fn first_name(json: &str) -> String {
    let member = |value: &Value, at: usize| match value {
        Value::Object(members) => members[at].1.clone(),
        Value::List(items) => items[at].clone(),
        other => panic!("no members: {other:?}"),
    };
    let inputs = member(&parse(json).expect("JSON"), 1);
    match member(&member(&inputs, 0), 0) {
        Value::Text(name) => name,
        other => panic!("no name: {other:?}"),
    }
}

/// Names of files: all bytes but 0 and the slash may be in them.
const FILE_NAMES: [&[u8]; 13] = [
    b"\xc0\xaf\xc1\xbf",
    b" ",
    b"\xff\xfe.ret",
    b"d\xe9but",
    b"cut\xc3",
    "açúcar €𝄞".as_bytes(),
    b"a\nb",
    b"\x1b[31mred\x1b[0m",
    b"\x01\x7f\t\r",
    b"quote\"back\\slash",
    b"<script>alert('1')",
    b"&amp;<b title=\"x\">",
    &[b'n'; 255],
];

/// Inputs whose names have any bytes: in messages control bytes are `?`, in JSON all is UTF-8, and no name can end a
/// string of JSON or a tag of HTML.
#[test]
fn file_names_with_odd_bytes() {
    let (folder, bytes) = folder_of_day("file_names_with_odd_bytes");
    let cut = &bytes[..450];
    let expected = Expected::of(&[cut], false, &[]);
    for name in FILE_NAMES {
        folder.write(name, cut);
        let run = |format: &str| {
            let words = ["board", format].map(OsStr::new);
            let mut command = hollytrot(words);
            let output = folder.of(command.arg(OsStr::from_bytes(name))).output();
            let output = output.expect("its end");
            let is_control = |byte: &u8| *byte < 32 || *byte == 127;
            let clean = |byte: &u8| if is_control(byte) { b'?' } else { *byte };
            let line = expected.lines(&[""], false);
            let clean: Vec<u8> = name.iter().map(clean).chain(line.bytes()).collect();
            assert_eq!(output.stderr, clean, "{}", name.escape_ascii());
            assert_eq!(output.status.code(), Some(1));
            output.stdout
        };
        let json = String::from_utf8(run("--json")).expect("UTF-8");
        assert_eq!(first_name(&json), String::from_utf8_lossy(name));
        let html = String::from_utf8(run("--html")).expect("UTF-8");
        assert!(!html.contains("<script") && !html.contains("<b "));
        assert!(!html.contains(|c: char| c.is_control() && c != '\n'));
    }
}
