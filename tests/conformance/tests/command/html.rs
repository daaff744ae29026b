//! The planner's page: the rows of its table have the sums of the board, their part of 2^32, what a sum of 32 bits
//! would have shown, and bars of the right lengths.

use reference::random::Random;
use reference::{days, Board, Issuer, Writer};

use crate::expected::Expected;
use crate::process::{hollytrot, output_of};
use crate::random_day::day;
use crate::text::{issuer_text, parted, reais};

/// The first sum that 32 bits do not hold.
const LIMIT: u64 = 1 << 32;

/// What lies between two texts, as often as they come.
fn between<'a>(text: &'a str, start: &str, end: &str) -> Vec<&'a str> {
    let parts = text.split(start).skip(1);
    parts
        .filter_map(|part| Some(part.split_once(end)?.0))
        .collect()
}

/// A text without its tags.
fn without_tags(text: &str) -> String {
    let rest = text.split('<').map(|part| match part.split_once('>') {
        Some((_, behind)) => behind,
        None => part,
    });
    rest.collect()
}

/// The part of 2^32, in percent, rounded down; what is too small for that is below the least.
fn part(centavos: u64) -> String {
    let millionths = u128::from(centavos) * 1_000_000 / u128::from(LIMIT);
    match (centavos, millionths as u64) {
        (1.., 0) => "&lt; 0.0001 %".to_string(),
        (_, part) => format!("{}.{:04} %", parted(part / 10_000, ','), part % 10_000),
    }
}

/// What a sum of 32 bits would have shown.
fn old(centavos: u64) -> String {
    let wrapped = match centavos / LIMIT {
        0 => String::new(),
        1 => " wrapped".to_string(),
        times => format!(" wrapped {} times", parted(times, ',')),
    };
    reais(centavos % LIMIT) + &wrapped
}

/// The number of an attribute in percent, of the first element of a class in a row.
fn percent(row: &str, class: &str, attribute: &str) -> Option<f64> {
    let element = *between(row, &format!("class=\"{class}\" "), "/>").first()?;
    let value = *between(element, &format!("{attribute}=\""), "\"").first()?;
    value.trim_end_matches('%').parse().ok()
}

/// The bar is logarithmic, from 1 centavo to the end of the scale: up to what 32 bits would have shown, then lost.
#[track_caller]
fn assert_bar(row: &str, centavos: u64, total: u64) {
    let mut end = 1e12;
    while end < total as f64 {
        end *= 1e3;
    }
    let place = |sum: u64| 100.0 * (sum.max(1) as f64).ln() / end.ln();
    let is_near = |found: Option<f64>, expected: f64| match found {
        Some(found) => (found - expected).abs() < 0.03,
        None => expected < 0.01,
    };
    let (shown, whole) = (place(centavos % LIMIT), place(centavos));
    assert!(is_near(percent(row, "shown", "width"), shown), "{row}");
    assert!(is_near(percent(row, "limit", "x1"), place(LIMIT)), "{row}");
    assert_eq!(row.contains("class=\"lost\""), centavos >= LIMIT, "{row}");
    if centavos >= LIMIT {
        assert!(is_near(percent(row, "lost", "x"), shown), "{row}");
        assert!(
            is_near(percent(row, "lost", "width"), whole - shown),
            "{row}"
        );
    }
}

/// Every row of the page is that of a lane, and the last that of the total.
#[track_caller]
fn assert_rows(html: &str, board: &Board) {
    let mut rows: Vec<(String, u64, u64, u64)> = board
        .in_use()
        .iter()
        .map(|lane| {
            let issuer = issuer_text(lane.issuer);
            (issuer, lane.payments, lane.centavos, lane.tariff)
        })
        .collect();
    if !rows.is_empty() {
        rows.push(("Total".into(), board.payments, board.centavos, board.tariff));
    }
    let found = between(html, "<tr role=\"row\"", "</tr>");
    let found: Vec<&str> = found
        .into_iter()
        .filter(|row| row.contains("rowheader"))
        .collect();
    assert_eq!(found.len(), rows.len());
    for (row, (name, payments, centavos, tariff)) in found.iter().zip(rows) {
        let wraps = row.starts_with(" class=\"wraps\">");
        assert_eq!(wraps, centavos >= LIMIT, "{row}");
        let heading = between(row, "<th ", "</th>")[0];
        let mut cells = vec![without_tags(&format!("<{heading}"))];
        let texts = between(row, "<td ", "</td>");
        let text = |cell: &&str| without_tags(&format!("<{}", cell.replace('\n', "")));
        cells.extend(texts.iter().map(text));
        let (payments, received) = (parted(payments, ','), reais(centavos));
        let sums = [
            payments,
            received,
            reais(tariff),
            part(centavos),
            old(centavos),
        ];
        assert_eq!(cells, [&[name][..], &sums].concat());
        assert_bar(row, centavos, board.centavos);
    }
}

/// The page of these bytes.
fn page_of(bytes: &[u8]) -> String {
    let mut command = hollytrot(["board", "--html"]);
    let output = output_of(&mut command, |stdin| stdin.write_all(bytes));
    String::from_utf8(output.stdout).expect("UTF-8")
}

#[test]
fn pages_of_days() {
    for i in 0..60 {
        let bytes = day(i);
        let expected = Expected::of(&[&bytes], false, &[]);
        assert_rows(&page_of(&bytes), expected.session.board());
    }
}

/// A file with a payment for each of these sums, of an issuer of its own.
fn file_of(sums: &[u64]) -> Vec<u8> {
    let random = &mut Random::new(2);
    let mut writer = Writer::new();
    let mut bytes = vec![0; 150 * (sums.len() + 2)];
    let mut records = bytes.chunks_exact_mut(150);
    let mut next = || records.next().expect("a buffer for each record");
    let header = days::header_fields(random);
    writer.header(&header, next()).expect("a good header");
    for (number, &received) in (0..).zip(sums) {
        let issuer = Issuer { segment: 2, number };
        let code = days::barcode_of(random, issuer).expect("a good barcode");
        let fields = days::payment_fields(random, &code, writer.version);
        writer
            .payment(&fields, received, 9_999_999, &[], next())
            .expect("a good payment");
    }
    writer.trailer(next()).expect("a good trailer");
    bytes
}

/// Sums around 2^32 and its multiples, the smallest and the largest ones, and totals at the ends of the scale.
#[test]
fn pages_at_the_edges() {
    let most = 999_999_999_999;
    for sums in [
        &[0][..],
        &[1],
        &[LIMIT - 1],
        &[LIMIT],
        &[0, 1, 2, 42, 43, 4294, 4295, LIMIT - 1, LIMIT, LIMIT + 1],
        &[LIMIT / 2, LIMIT / 2],
        &[2 * LIMIT - 1, 2 * LIMIT, 2 * LIMIT + 1, 100 * LIMIT + 99],
        &[most, 1],
        &[most, 2],
        &[most; 64],
    ] {
        let bytes = file_of(sums);
        let expected = Expected::of(&[&bytes], false, &[]);
        assert_eq!(expected.status(), 0);
        assert_rows(&page_of(&bytes), expected.session.board());
    }
}
