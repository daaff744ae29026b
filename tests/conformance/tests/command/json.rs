//! A strict reader of JSON as the command writes it: whole numbers without a sign, no key twice, and nothing behind the
//! value but a newline.

/// A value. The members of an object keep their order.
#[derive(Clone, Debug, PartialEq)]
pub enum Value {
    Null,
    Number(u64),
    Text(String),
    List(Vec<Value>),
    Object(Vec<(String, Value)>),
}

struct Reader<'a> {
    rest: &'a str,
}

/// The value of a whole text; the error is what follows the first wrong place.
pub fn parse(text: &str) -> Result<Value, String> {
    let mut reader = Reader { rest: text };
    match reader.value() {
        Some(value) if reader.rest == "\n" => Ok(value),
        _ => Err(reader.rest.chars().take(80).collect()),
    }
}

impl Reader<'_> {
    fn skip_blanks(&mut self) {
        self.rest = self.rest.trim_start_matches([' ', '\t', '\n', '\r']);
    }

    /// Takes this text, if it is next.
    fn take(&mut self, text: &str) -> Option<()> {
        self.rest = self.rest.strip_prefix(text)?;
        Some(())
    }

    fn take_char(&mut self) -> Option<char> {
        let next = self.rest.chars().next()?;
        self.rest = &self.rest[next.len_utf8()..];
        Some(next)
    }

    fn value(&mut self) -> Option<Value> {
        self.skip_blanks();
        match self.rest.as_bytes().first()? {
            b'"' => self.text().map(Value::Text),
            b'[' => self.items(["[", "]"], Reader::value).map(Value::List),
            b'{' => {
                let members = self.items(["{", "}"], Reader::member)?;
                all_differ(&members).then_some(Value::Object(members))
            }
            b'n' => self.take("null").map(|()| Value::Null),
            _ => self.number().map(Value::Number),
        }
    }

    fn items<T>(&mut self, ends: [&str; 2], item: fn(&mut Self) -> Option<T>) -> Option<Vec<T>> {
        let mut items = Vec::new();
        self.take(ends[0])?;
        self.skip_blanks();
        while self.take(ends[1]).is_none() {
            if !items.is_empty() {
                self.take(",")?;
            }
            items.push(item(self)?);
            self.skip_blanks();
        }
        Some(items)
    }

    fn member(&mut self) -> Option<(String, Value)> {
        self.skip_blanks();
        let key = self.text()?;
        self.skip_blanks();
        self.take(":")?;
        Some((key, self.value()?))
    }

    fn number(&mut self) -> Option<u64> {
        let end = self.rest.find(|c: char| !c.is_ascii_digit())?;
        let (digits, behind) = self.rest.split_at(end);
        self.rest = behind;
        let is_padded = digits.len() > 1 && digits.starts_with('0');
        digits.parse().ok().filter(|_| !is_padded)
    }

    fn text(&mut self) -> Option<String> {
        let mut text = String::new();
        self.take("\"")?;
        loop {
            match self.take_char()? {
                '"' => return Some(text),
                '\\' => text.push(self.escaped()?),
                ..' ' => return None,
                next => text.push(next),
            }
        }
    }

    /// The character of an escape, behind its backslash. The command writes none that needs two of `\u`.
    fn escaped(&mut self) -> Option<char> {
        match self.take_char()? {
            same @ ('"' | '\\' | '/') => Some(same),
            'n' => Some('\n'),
            'r' => Some('\r'),
            't' => Some('\t'),
            'u' => {
                let digits: Option<String> = (0..4).map(|_| self.take_char()).collect();
                let digits = digits.filter(|four| four.chars().all(|c| c.is_ascii_hexdigit()))?;
                char::from_u32(u32::from_str_radix(&digits, 16).ok()?)
            }
            _ => None,
        }
    }
}

fn all_differ(members: &[(String, Value)]) -> bool {
    (1..members.len()).all(|i| members[..i].iter().all(|(key, _)| *key != members[i].0))
}
