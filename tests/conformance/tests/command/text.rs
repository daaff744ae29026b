//! Numbers and issuers as the command writes them.

use reference::Issuer;

/// A number with a mark between its thousands.
pub fn parted(number: u64, mark: char) -> String {
    let digits = number.to_string();
    let mut parted = String::new();
    for (i, digit) in digits.chars().enumerate() {
        if i > 0 && (digits.len() - i).is_multiple_of(3) {
            parted.push(mark);
        }
        parted.push(digit);
    }
    parted
}

/// R$ 1.234,56, in both languages.
pub fn reais(centavos: u64) -> String {
    format!("R$ {},{:02}", parted(centavos / 100, '.'), centavos % 100)
}

/// 1-3659; in segment 6 6-33041260.
pub fn issuer_text(issuer: Issuer) -> String {
    let width = issuer.width();
    format!("{}-{:0width$}", issuer.segment, issuer.number)
}
