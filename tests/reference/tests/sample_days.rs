//! Each day in samples/ has the page beside it.

use std::fs;
use std::path::Path;

#[test]
fn every_day_has_its_page() {
    let samples = Path::new(env!("CARGO_MANIFEST_DIR")).join("../../samples");
    let mut days = 0;
    for entry in fs::read_dir(samples).unwrap() {
        let day = entry.unwrap().path();
        if day.extension().is_some_and(|e| e == "ret") {
            let page = fs::read(day.with_extension("page")).unwrap();
            assert_eq!(
                reference::page::page_of(&fs::read(&day).unwrap()),
                page,
                "{}",
                day.display()
            );
            days += 1;
        }
    }
    assert!(days >= 7);
}
