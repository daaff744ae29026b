//! Tariffs on the page: the line behind each `centavos`, and how long a page can be.

mod common;

use common::{a, a_of, code_for, g_tariff, p4_code, z};
use reference::page::{page, page_of};
use reference::{Board, Issuer, Lane};

fn text(page: Vec<u8>) -> String {
    String::from_utf8(page).unwrap()
}

#[test]
fn the_empty_page() {
    let zeros = "lanes=0\npayments=0\ncentavos=0\ntariff=0\n";
    let head = "answer=0\nplace=0\nrecord=0\nfiles=0\n";
    assert_eq!(text(page_of(b"")), format!("{head}{zeros}"));
}

/// The page of document 01: tariff 0 is printed.
#[test]
fn the_worked_page() {
    let payment = g_tariff(&p4_code(), 109, 0);
    assert_eq!(&payment[81..100], b"0000000001090000000");
    let expected = "answer=0\nplace=0\nrecord=3\nfiles=1\nlanes=1\n\
        payments=1\ncentavos=109\ntariff=0\n\
        lane=1\nissuer=1-3659\npayments=1\ncentavos=109\ntariff=0\n";
    let input = [a(), payment, z(3, 109)].concat();
    assert_eq!(text(page_of(&input)), expected);
}

/// Every number of this page differs from its neighbours, so that a wrong order shows.
#[test]
fn lines_and_their_order() {
    let (one, six) = (p4_code(), code_for(6, 12));
    let first = [a(), g_tariff(&one, 100, 7), g_tariff(&six, 30, 1_000)];
    let second = [z(4, 130), a_of(2), g_tariff(&one, 2, 9_999_999)];
    let input = [first, second].concat().concat();
    let expected = "answer=19\nplace=0\nrecord=6\nfiles=1\nlanes=2\n\
        payments=2\ncentavos=130\ntariff=1007\n\
        lane=1\nissuer=1-3659\npayments=1\ncentavos=100\ntariff=7\n\
        lane=2\nissuer=6-00000012\npayments=1\ncentavos=30\ntariff=1000\n";
    assert_eq!(text(page_of(&input)), expected);
    let closed = [&input[..], &z(3, 2)].concat();
    let expected = "answer=0\nplace=0\nrecord=7\nfiles=2\nlanes=2\n\
        payments=3\ncentavos=132\ntariff=10001006\n\
        lane=1\nissuer=1-3659\npayments=2\ncentavos=102\ntariff=10000006\n\
        lane=2\nissuer=6-00000012\npayments=1\ncentavos=30\ntariff=1000\n";
    assert_eq!(text(page_of(&closed)), expected);
}

/// A board in an arbitrary state: the numbers are printed as they are, and not summed again.
#[test]
fn a_board_by_hand() {
    let mut board = Board {
        used: 1,
        payments: 1,
        centavos: 2,
        tariff: u64::MAX,
        ..Board::new()
    };
    board.lanes[0] = Lane {
        issuer: Issuer {
            segment: 9,
            number: 3,
        },
        payments: 4,
        centavos: 5,
        tariff: 6,
    };
    let expected = "answer=1\nplace=2\nrecord=3\nfiles=4\nlanes=1\n\
        payments=1\ncentavos=2\ntariff=18446744073709551615\n\
        lane=1\nissuer=9-0003\npayments=4\ncentavos=5\ntariff=6\n";
    assert_eq!(text(page(1, 2, 3, 4, &board)), expected);
}

/// The room of a line with 20 digits for each of its numbers; an issuer has two, with a hyphen between.
fn room(line: &str) -> usize {
    let key = line.split('=').next().unwrap();
    let numbers = if key == "issuer" { 20 + 1 + 20 } else { 20 };
    key.len() + 1 + numbers + 1
}

/// With room for 20 digits in each number, the page of 64 lanes has 10657 bytes. None is that long: the highest number
/// of lanes, and of a lane, is 64.
#[test]
fn the_longest_page() {
    let most = u64::MAX;
    let lane = Lane {
        issuer: Issuer {
            segment: most,
            number: most,
        },
        payments: most,
        centavos: most,
        tariff: most,
    };
    let board = Board {
        lanes: [lane; 64],
        used: usize::MAX,
        payments: most,
        centavos: most,
        tariff: most,
    };
    let page = text(page(most, most, most, most, &board));
    let lines: Vec<&str> = page.lines().collect();
    let (head, lanes) = lines.split_at(8);
    assert_eq!(head.iter().map(|line| room(line)).sum::<usize>(), 225);
    for lane in lanes.chunks(5) {
        assert_eq!(lane.iter().map(|line| room(line)).sum::<usize>(), 163);
    }
    assert_eq!(lines.iter().map(|line| room(line)).sum::<usize>(), 10657);
    // 18 digits fewer in `lanes` and in 55 lanes, 19 fewer in the first nine.
    assert_eq!(page.len(), 10657 - 18 - 55 * 18 - 9 * 19);
}
