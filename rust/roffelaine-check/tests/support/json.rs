//! A tiny JSON reader: objects, lists, texts, whole numbers and null.

/// A JSON value of a vector row.
#[derive(Clone, Debug, PartialEq)]
pub enum Json {
    Null,
    Number(i128),
    Text(String),
    List(Vec<Json>),
    /// No JSON, but what a field of bytes says.
    Bytes(Vec<u8>),
    Object(Vec<(String, Json)>),
}

impl Json {
    /// Reads one value that takes up all of the text.
    pub fn read(text: &str) -> Option<Json> {
        let mut reader = Reader {
            bytes: text.as_bytes(),
            at: 0,
        };
        let value = reader.value()?;
        reader.blanks();
        (reader.at == reader.bytes.len()).then_some(value)
    }

    /// The value of a name, if the object has it.
    pub fn find(&self, name: &str) -> Option<&Json> {
        match self {
            Json::Object(pairs) => pairs
                .iter()
                .find(|(key, _)| key == name)
                .map(|(_, value)| value),
            _ => None,
        }
    }

    /// The value of a name that the object must have.
    pub fn get(&self, name: &str) -> &Json {
        self.find(name)
            .unwrap_or_else(|| panic!("no {name:?} in a vector row"))
    }

    /// The names that an object has.
    pub fn names(&self) -> Vec<&str> {
        match self {
            Json::Object(pairs) => pairs.iter().map(|(name, _)| &name[..]).collect(),
            other => panic!("{other:?} is no object"),
        }
    }

    pub fn list(&self) -> &[Json] {
        match self {
            Json::List(values) => values,
            other => panic!("{other:?} is no list"),
        }
    }

    pub fn text(&self) -> &str {
        match self {
            Json::Text(text) => text,
            other => panic!("{other:?} is no text"),
        }
    }

    pub fn number<T: TryFrom<i128>>(&self) -> T {
        match self {
            Json::Number(number) => T::try_from(*number).ok(),
            _ => None,
        }
        .unwrap_or_else(|| panic!("{self:?} is no such number"))
    }

    /// All numbers in a list, or in a list of lists, as one run.
    pub fn run(&self) -> Vec<u64> {
        match self {
            Json::List(values) => values.iter().flat_map(Json::run).collect(),
            number => vec![number.number()],
        }
    }

    pub fn bytes(&self) -> &[u8] {
        match self {
            Json::Bytes(bytes) => bytes,
            other => panic!("{other:?} are no bytes"),
        }
    }

    /// The bytes that a text of hexadecimal digits says.
    pub fn hex(&self) -> Vec<u8> {
        let digits = self.text().as_bytes();
        assert!(digits.len().is_multiple_of(2), "{self:?} has half a byte");
        let value = |digit: u8| (digit as char).to_digit(16).expect("a hexadecimal digit") as u8;
        digits
            .chunks_exact(2)
            .map(|pair| 16 * value(pair[0]) + value(pair[1]))
            .collect()
    }
}

const NULL: &[u8] = b"null";

struct Reader<'a> {
    bytes: &'a [u8],
    at: usize,
}

impl Reader<'_> {
    fn blanks(&mut self) {
        while self.peek().is_some_and(|byte| byte.is_ascii_whitespace()) {
            self.at += 1;
        }
    }

    fn peek(&self) -> Option<u8> {
        self.bytes.get(self.at).copied()
    }

    /// Whether the next mark after blanks is this one; if so, passes it.
    fn mark(&mut self, mark: u8) -> bool {
        self.blanks();
        let found = self.peek() == Some(mark);
        self.at += usize::from(found);
        found
    }

    fn value(&mut self) -> Option<Json> {
        if self.mark(b'{') {
            return Some(Json::Object(self.items(b'}', Self::pair)?));
        }
        if self.mark(b'[') {
            return Some(Json::List(self.items(b']', Self::value)?));
        }
        if self.mark(b'"') {
            return Some(Json::Text(self.text()?));
        }
        if self.bytes[self.at..].starts_with(NULL) {
            self.at += NULL.len();
            return Some(Json::Null);
        }
        self.number()
    }

    /// Items with commas between them, up to the closing mark.
    fn items<T>(&mut self, close: u8, item: fn(&mut Self) -> Option<T>) -> Option<Vec<T>> {
        let mut items = Vec::new();
        if self.mark(close) {
            return Some(items);
        }
        loop {
            items.push(item(self)?);
            if self.mark(close) {
                return Some(items);
            }
            if !self.mark(b',') {
                return None;
            }
        }
    }

    fn pair(&mut self) -> Option<(String, Json)> {
        if !self.mark(b'"') {
            return None;
        }
        let name = self.text()?;
        if !self.mark(b':') {
            return None;
        }
        Some((name, self.value()?))
    }

    /// A text up to its closing quote.
    fn text(&mut self) -> Option<String> {
        let mut text = Vec::new();
        loop {
            let byte = self.byte()?;
            text.push(match byte {
                b'"' => return String::from_utf8(text).ok(),
                b'\\' => escaped(self.byte()?)?,
                _ => byte,
            });
        }
    }

    fn byte(&mut self) -> Option<u8> {
        let byte = self.peek()?;
        self.at += 1;
        Some(byte)
    }

    fn number(&mut self) -> Option<Json> {
        let start = self.at;
        while self
            .peek()
            .is_some_and(|byte| byte == b'-' || byte.is_ascii_digit())
        {
            self.at += 1;
        }
        let digits = std::str::from_utf8(&self.bytes[start..self.at]).ok()?;
        digits.parse().ok().map(Json::Number)
    }
}

/// The byte that one behind a backslash stands for; vectors have no others.
fn escaped(byte: u8) -> Option<u8> {
    match byte {
        b'r' => Some(b'\r'),
        b'n' => Some(b'\n'),
        b'"' | b'\\' | b'/' => Some(byte),
        _ => None,
    }
}
