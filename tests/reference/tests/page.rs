//! Choices of docs/SPEC.md, "Page" and "The program quadro", each with an input that tells it from another reading.

mod common;

use common::{a, a06, a_nth, a_of, code_for, g, lined_all, p4_code, with_byte, z};
use reference::{page, Board, Issuer, Lane};

#[track_caller]
fn assert_page(input: &[u8], lines: &[&str]) {
    let text = lines.iter().map(|line| format!("{line}\n"));
    assert_eq!(
        String::from_utf8(page::page_of(input)).unwrap(),
        text.collect::<String>()
    );
}

#[test]
fn records_of_the_open_file_count() {
    let good = g(&p4_code(), 109);
    let bad = with_byte(good, 1, b'X');
    let input = [a(), good, z(3, 109), a_of(2), good, bad].concat();
    assert_page(
        &input,
        &[
            "answer=9",
            "place=1",
            "record=5",
            "files=1",
            "lanes=1",
            "payments=1",
            "centavos=109",
            "tariff=150",
            "lane=1",
            "issuer=1-3659",
            "payments=1",
            "centavos=109",
            "tariff=150",
        ],
    );
}

#[test]
fn an_open_file() {
    let zeros = ["lanes=0", "payments=0", "centavos=0", "tariff=0"];
    let good = g(&p4_code(), 109);
    let open = ["answer=19", "place=0", "record=2", "files=0"];
    assert_page(&[a(), good].concat(), &[&open[..], &zeros[..]].concat());
    let refused = ["answer=14", "place=8", "record=2", "files=0"];
    let input = [a(), good, z(3, 1)].concat();
    assert_page(&input, &[&refused[..], &zeros[..]].concat());
}

#[test]
fn an_empty_input() {
    assert_page(
        b"",
        &[
            "answer=0",
            "place=0",
            "record=0",
            "files=0",
            "lanes=0",
            "payments=0",
            "centavos=0",
            "tariff=0",
        ],
    );
}

#[test]
fn line_ends() {
    let good = [a(), g(&p4_code(), 109), z(3, 109)];
    let lane = [
        "lanes=1",
        "payments=1",
        "centavos=109",
        "tariff=150",
        "lane=1",
        "issuer=1-3659",
        "payments=1",
        "centavos=109",
        "tariff=150",
    ];
    let input = [&good.concat()[..], b"\n"].concat();
    let head = ["answer=1", "place=0", "record=3", "files=1"];
    assert_page(&input, &[&head[..], &lane[..]].concat());
    // CR and LF after each record, as after the header.
    let input = lined_all(&good);
    let head = ["answer=0", "place=0", "record=3", "files=1"];
    assert_page(&input, &[&head[..], &lane[..]].concat());
    let none = ["lanes=0", "payments=0", "centavos=0", "tariff=0"];
    let head = ["answer=22", "place=151", "record=2", "files=0"];
    assert_page(&input[..455], &[&head[..], &none[..]].concat());
    // After each record but the header.
    let input = [&good[0][..], &input[152..]].concat();
    let head = ["answer=9", "place=1", "record=2", "files=0"];
    assert_page(&input, &[&head[..], &none[..]].concat());
    // LF alone.
    let input = [&good[0][..], b"\n", &good[1], b"\n"].concat();
    let head = ["answer=9", "place=1", "record=1", "files=0"];
    assert_page(&input, &[&head[..], &none[..]].concat());
}

#[test]
fn issuers_keep_their_zeros() {
    let input = [a(), g(&code_for(6, 12), 7), g(&code_for(1, 12), 0), z(4, 7)].concat();
    assert_page(
        &input,
        &[
            "answer=0",
            "place=0",
            "record=4",
            "files=1",
            "lanes=2",
            "payments=2",
            "centavos=7",
            "tariff=300",
            "lane=1",
            "issuer=6-00000012",
            "payments=1",
            "centavos=7",
            "tariff=150",
            "lane=2",
            "issuer=1-0012",
            "payments=1",
            "centavos=0",
            "tariff=150",
        ],
    );
}

#[test]
fn number_and_place_may_be_any_numbers() {
    for (number, place) in [(0, 7), (20, 0), (22, 151), (u64::MAX, u64::MAX)] {
        let text = String::from_utf8(page::page(number, place, 1, 2, &Board::new())).unwrap();
        let rest = "record=1\nfiles=2\nlanes=0\npayments=0\ncentavos=0\ntariff=0\n";
        assert_eq!(text, format!("answer={number}\nplace={place}\n{rest}"));
    }
}

#[test]
fn the_page_of_two_versions() {
    let paid = with_byte(g(&p4_code(), 5), 117, b'9');
    let input = [a06(), paid, z(3, 5), a_of(2), paid, z(3, 5)].concat();
    assert_page(
        &input,
        &[
            "answer=12",
            "place=117",
            "record=4",
            "files=1",
            "lanes=1",
            "payments=1",
            "centavos=5",
            "tariff=150",
            "lane=1",
            "issuer=1-3659",
            "payments=1",
            "centavos=5",
            "tariff=150",
        ],
    );
}

/// 17 files of 17 pairs, with 100, 101 and so on centavos for two issuers in turn. The last file is refused.
#[test]
fn the_page_of_17_pairs() {
    let codes = [p4_code(), code_for(2, 7)];
    let file = |i: u64| {
        let code = &codes[i as usize % 2];
        [a_nth(i, 1), g(code, 100 + i), z(3, 100 + i)].concat()
    };
    let input: Vec<u8> = (0..17).flat_map(file).collect();
    assert_page(
        &input,
        &[
            "answer=27",
            "place=3",
            "record=48",
            "files=16",
            "lanes=2",
            "payments=16",
            "centavos=1720",
            "tariff=2400",
            "lane=1",
            "issuer=1-3659",
            "payments=8",
            "centavos=856",
            "tariff=1200",
            "lane=2",
            "issuer=2-0007",
            "payments=8",
            "centavos=864",
            "tariff=1200",
        ],
    );
}

/// A board in an arbitrary state: issuers are printed whole, whatever their segment and however wide.
#[test]
fn arbitrary_boards() {
    let issuers = [
        (1, 12_345, "1-12345"),
        (6, 123_456_789, "6-123456789"),
        (0, 7, "0-0007"),
        (8, 7, "8-0007"),
        (10, 7, "10-0007"),
        (66, 7, "66-0007"),
        (
            u64::MAX,
            u64::MAX,
            "18446744073709551615-18446744073709551615",
        ),
    ];
    let mut board = Board::new();
    board.used = issuers.len();
    let head = "answer=0\nplace=0\nrecord=0\nfiles=0\nlanes=7\n";
    let mut expected = format!("{head}payments=0\ncentavos=0\ntariff=0\n");
    for (i, (segment, number, text)) in issuers.into_iter().enumerate() {
        board.lanes[i] = Lane {
            issuer: Issuer { segment, number },
            payments: u64::MAX,
            centavos: 0,
            tariff: 0,
        };
        expected += &format!("lane={}\nissuer={text}\n", i + 1);
        expected += "payments=18446744073709551615\ncentavos=0\ntariff=0\n";
    }
    let printed = |board: &Board| String::from_utf8(page::page(0, 0, 0, 0, board)).unwrap();
    assert_eq!(printed(&board), expected);
    // The lanes in use are the first `used` of the 64.
    board.used = 0;
    assert!(printed(&board).ends_with("lanes=0\npayments=0\ncentavos=0\ntariff=0\n"));
    board.used = usize::MAX;
    assert!(printed(&board).contains("\nlanes=64\n"));
    let last = "lane=64\nissuer=0-0000\npayments=0\ncentavos=0\ntariff=0\n";
    assert!(printed(&board).ends_with(last));
}
