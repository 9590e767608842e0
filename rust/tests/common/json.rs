//! A reader of the JSON that the stored cases use: objects, lists, whole numbers and plain strings.

#[derive(Clone, Debug, PartialEq)]
pub enum Json {
    Number(u64),
    Text(String),
    List(Vec<Json>),
    Object(Vec<(String, Json)>),
}

impl Json {
    /// The value of a line.
    pub fn read(line: &str) -> Json {
        let mut rest = line.trim();
        let value = value(&mut rest);
        assert!(rest.trim().is_empty(), "more than one value: {rest}");
        value
    }

    pub fn get(&self, name: &str) -> Option<&Json> {
        match self {
            Json::Object(fields) => fields.iter().find(|f| f.0 == name).map(|f| &f.1),
            _ => panic!("no object"),
        }
    }

    pub fn number(&self) -> u64 {
        match self {
            Json::Number(n) => *n,
            _ => panic!("no number: {self:?}"),
        }
    }

    pub fn text(&self) -> &str {
        match self {
            Json::Text(s) => s,
            _ => panic!("no string: {self:?}"),
        }
    }

    pub fn list(&self) -> &[Json] {
        match self {
            Json::List(l) => l,
            _ => panic!("no list: {self:?}"),
        }
    }

    pub fn numbers(&self) -> Vec<u32> {
        self.list().iter().map(|n| u32::try_from(n.number()).unwrap()).collect()
    }

    /// A byte string: a list of [hex, times], joined.
    pub fn bytes(&self) -> Vec<u8> {
        let mut bytes = vec![];
        for part in self.list() {
            let hex = part.list()[0].text();
            let piece: Vec<u8> = (0..hex.len() / 2).map(|i| u8::from_str_radix(&hex[2 * i..2 * i + 2], 16).unwrap()).collect();
            bytes.extend(piece.repeat(part.list()[1].number() as usize));
        }
        bytes
    }
}

fn skip(rest: &mut &str) {
    *rest = rest.trim_start();
}

fn eat(rest: &mut &str, c: char) -> bool {
    skip(rest);
    match rest.strip_prefix(c) {
        Some(after) => {
            *rest = after;
            true
        }
        None => false,
    }
}

fn value(rest: &mut &str) -> Json {
    if eat(rest, '{') {
        let mut fields = vec![];
        while !eat(rest, '}') {
            let Json::Text(name) = value(rest) else { panic!("a name was expected") };
            assert!(eat(rest, ':'));
            fields.push((name, value(rest)));
            eat(rest, ',');
        }
        Json::Object(fields)
    } else if eat(rest, '[') {
        let mut list = vec![];
        while !eat(rest, ']') {
            list.push(value(rest));
            eat(rest, ',');
        }
        Json::List(list)
    } else if eat(rest, '"') {
        let end = rest.find('"').expect("a string ends");
        let text = &rest[..end];
        assert!(!text.contains('\\'), "no escapes are read");
        *rest = &rest[end + 1..];
        Json::Text(text.to_string())
    } else {
        let end = rest.find(|c: char| !c.is_ascii_digit()).unwrap_or(rest.len());
        let number = rest[..end].parse().unwrap_or_else(|_| panic!("a value was expected: {rest:.20}"));
        *rest = &rest[end..];
        Json::Number(number)
    }
}
