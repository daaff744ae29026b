//! The subcommand `board` with --reais and --names: the table of people, with the names of a file that may have any
//! bytes.

use reference::days;
use reference::random::Random;
use reference::{Board, Issuer};

use crate::expected::Expected;
use crate::folder::Folder;
use crate::process::{hollytrot, output_of};
use crate::random_day::day;
use crate::text::{issuer_text, parted, reais};

/// The most bytes of a name.
const NAME: usize = 255;

/// The rows of the table: issuer, name, payments, received, tariff. Without a name there is no column of names.
fn table(board: &Board, name_of: impl Fn(Issuer) -> String) -> Vec<String> {
    let heading = ["issuer", "name", "payments", "received", "tariff"];
    let mut rows = vec![heading.map(str::to_string)];
    let sums = |payments, centavos, tariff| {
        let payments = parted(payments, ',');
        (payments, reais(centavos), reais(tariff))
    };
    for lane in board.in_use() {
        let (payments, received, tariff) = sums(lane.payments, lane.centavos, lane.tariff);
        let (issuer, name) = (issuer_text(lane.issuer), name_of(lane.issuer));
        rows.push([issuer, name, payments, received, tariff]);
    }
    let (payments, received, tariff) = sums(board.payments, board.centavos, board.tariff);
    rows.push(["total".into(), String::new(), payments, received, tariff]);
    let named = rows[1..].iter().any(|row| !row[1].is_empty());
    let width = |column: usize| rows.iter().map(|row| row[column].chars().count()).max();
    let widths: Vec<usize> = (0..5).map(|column| width(column).unwrap_or(0)).collect();
    let name = |name: &str| match named {
        true => format!("  {name:0$}", widths[1]),
        false => String::new(),
    };
    rows.iter()
        .map(|[issuer, text, payments, received, tariff]| {
            format!(
                "{issuer:0$}{4}  {payments:>1$}  {received:>2$}  {tariff:>3$}",
                widths[0],
                widths[2],
                widths[3],
                widths[4],
                name(text)
            )
        })
        .collect()
}

/// The table that the command prints behind its sentence and an empty line.
#[track_caller]
fn printed_table(output: &[u8]) -> Vec<String> {
    let text = String::from_utf8(output.to_vec()).expect("UTF-8");
    let (sentence, table) = text.split_once("\n\n").expect("a sentence and a table");
    assert!(sentence.starts_with("Accepted") || sentence.starts_with("Refused"));
    assert!(table.ends_with('\n'));
    table.lines().map(str::to_string).collect()
}

#[test]
fn tables_of_days() {
    for i in 0..60 {
        let bytes = day(i);
        let expected = Expected::of(&[&bytes], false, &[]);
        let mut command = hollytrot(["board", "--reais"]);
        let output = output_of(&mut command, |stdin| stdin.write_all(&bytes));
        assert_eq!(output.status.code(), Some(expected.status()));
        let board = expected.session.board();
        assert_eq!(
            printed_table(&output.stdout),
            table(board, |_| String::new())
        );
    }
}

/// What HTML, terminals and tables could stumble over.
const PIECES: [&[u8]; 16] = [
    b"A",
    b" ",
    b"\t",
    b"\0",
    b"\x1b[1m",
    b"\x7f",
    b"\r ",
    b"<b>",
    b"\"&'",
    "ã".as_bytes(),
    "€".as_bytes(),
    "𝄞".as_bytes(),
    "\u{9b}".as_bytes(),
    b"\xff",
    b"\xe2\x82",
    b"\xed\xa0\x80",
];

/// Any bytes of a name but LF and, at its end, CR: sometimes longer than a name may be, sometimes one piece over and
/// over.
fn random_name(random: &mut Random) -> Vec<u8> {
    let most = match random.below(4) {
        0 => 400,
        1 => 2,
        _ => 12,
    };
    let mut name = Vec::new();
    let one = PIECES[random.index(PIECES.len())];
    let mixed = !random.once_in(4);
    if !mixed {
        // Blanks alone would be no name.
        name.push(b'N');
    }
    for _ in 0..random.index(most) {
        let next = if mixed {
            PIECES[random.index(PIECES.len())]
        } else {
            one
        };
        name.extend_from_slice(next);
    }
    name.push(b'N');
    name
}

/// What is shown of a name: UTF-8, with blanks for control characters, without blanks around it, cut behind a whole
/// character.
fn shown(name: &[u8]) -> String {
    let start = name
        .iter()
        .take_while(|&&byte| byte == b' ' || byte == b'\t');
    let text = String::from_utf8_lossy(&name[start.count()..]).into_owned();
    let mut text = text.replace(char::is_control, " ");
    text.truncate(text.floor_char_boundary(NAME));
    text.trim_end_matches(' ').to_string()
}

/// A file with names of most lanes, in lines of LF or CR LF, among comments, blank lines and names of other issuers;
/// and what is shown of them.
fn names_file(random: &mut Random, board: &Board) -> (Vec<u8>, Vec<(Issuer, String)>) {
    let mark: &[u8] = if random.once_in(4) {
        b"\xef\xbb\xbf"
    } else {
        b""
    };
    let (mut file, mut names) = (mark.to_vec(), Vec::new());
    for lane in board.in_use() {
        let name = random_name(random);
        let other = issuer_text(days::issuer(random));
        match random.below(8) {
            0 => file.extend_from_slice(b"\n\r\n# 1-3659 \xff\n"),
            1 => file.extend_from_slice(format!("{other}\tOther\n").as_bytes()),
            2 => continue,
            _ => {}
        }
        file.extend_from_slice(format!("{}\t", issuer_text(lane.issuer)).as_bytes());
        file.extend_from_slice(&name);
        file.extend_from_slice(if random.once_in(4) { b"\r\n" } else { b"\n" });
        names.push((lane.issuer, shown(&name)));
    }
    if random.once_in(4) {
        file.pop();
    }
    (file, names)
}

#[test]
fn names_with_odd_bytes() {
    let folder = Folder::new("names_with_odd_bytes");
    for i in 0..80 {
        let random = &mut Random::new(i);
        let day = days::day(random, 12, 2, 20).expect("a good day");
        let board = Expected::of(&[&day.bytes], false, &[]).session.shown;
        let (file, names) = names_file(random, &board);
        folder.write(b"day.ret", &day.bytes);
        folder.write(b"names", &file);
        let run = |format: &str| {
            let mut command = hollytrot(["board", format, "--names", "names", "day.ret"]);
            let output = folder.of(&mut command).output().expect("its end");
            assert_eq!(String::from_utf8_lossy(&output.stderr), "");
            assert_eq!(output.status.code(), Some(0));
            output.stdout
        };
        let name_of = |issuer| {
            let found = names.iter().find(|(other, _)| *other == issuer);
            found.map_or(String::new(), |(_, name)| name.clone())
        };
        assert_eq!(printed_table(&run("--reais")), table(&board, name_of));
        let html = String::from_utf8(run("--html")).expect("UTF-8");
        assert!(!html.contains("<b>"));
        assert!(!html.contains(|c: char| c.is_control() && c != '\n'));
    }
}

/// Lines that are not an issuer, a tab and a name.
const OTHER_FORMS: [&[u8]; 17] = [
    b"1-3659",
    b"1-3659 One",
    b"1-3659\t",
    b"1-3659\t \t ",
    b"\tOne",
    b" 1-3659\tOne",
    b"1-3659 \tOne",
    b"1-365\tOne",
    b"1-36590\tOne",
    b"6-3304126\tOne",
    b"0-3659\tOne",
    b"8-3659\tOne",
    b"1-36x9\tOne",
    b"1 3659\tOne",
    b"1-3659;One",
    b"\xff",
    b"\0",
];

/// Lines of another form: status 2 with the file and the line, and nothing is printed.
#[test]
fn names_in_another_form() {
    let folder = Folder::new("names_in_another_form");
    let day = days::day(&mut Random::new(1), 5, 2, 9).expect("a good day");
    folder.write(b"day.ret", &day.bytes);
    let long = vec![b'1'; 1 << 20];
    for wrong in OTHER_FORMS.into_iter().chain([&long[..]]) {
        folder.write(
            b"names",
            &[b"# one\r\n9-1204\tOne\n", wrong, b"\n"].concat(),
        );
        for format in ["--reais", "--html"] {
            let mut command = hollytrot(["board", format, "--names=names", "day.ret"]);
            let output = folder.of(&mut command).output().expect("its end");
            let error = String::from_utf8_lossy(&output.stderr);
            assert!(error.starts_with("hollytrot: names: line 3 "), "{error}");
            assert_eq!(output.stdout, b"");
            assert_eq!(output.status.code(), Some(2));
        }
    }
}
