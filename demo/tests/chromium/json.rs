//! JSON, read strictly: what is none is refused, and so are names that come twice and halves of characters.

use std::fmt::{self, Display, Formatter};

#[derive(Clone, Debug, PartialEq)]
pub enum Json {
    Null,
    Bool(bool),
    Number(f64),
    Text(String),
    List(Vec<Json>),
    Object(Vec<(String, Json)>),
}

/// The stack holds so many lists in lists.
const DEEPEST: usize = 128;

/// The whole numbers up to here are exact.
const EXACT: f64 = 9_007_199_254_740_992.0;

/// One value, and nothing after it; or what is wrong, and where.
pub fn read(text: &str) -> Result<Json, String> {
    let mut reader = Reader { text, place: 0 };
    let value = reader.value(0)?;
    reader.space();
    match reader.peek() {
        None => Ok(value),
        Some(_) => Err(reader.wrong("something after the end")),
    }
}

/// The text as JSON writes it.
pub fn quoted(text: &str) -> String {
    let mut quoted = String::from('"');
    for part in text.chars() {
        match part {
            '"' | '\\' => quoted.extend(['\\', part]),
            '\0'..' ' => quoted.push_str(&format!("\\u{:04x}", u32::from(part))),
            _ => quoted.push(part),
        }
    }
    quoted.push('"');
    quoted
}

impl Display for Json {
    fn fmt(&self, shown: &mut Formatter) -> fmt::Result {
        let member = |(name, value): &(String, Json)| format!("{}:{value}", quoted(name));
        let joined = |parts: Vec<String>| parts.join(",");
        match self {
            Json::Null => write!(shown, "null"),
            Json::Bool(value) => write!(shown, "{value}"),
            Json::Number(value) => write!(shown, "{value}"),
            Json::Text(text) => write!(shown, "{}", quoted(text)),
            Json::List(list) => {
                let parts = list.iter().map(Json::to_string).collect();
                write!(shown, "[{}]", joined(parts))
            }
            Json::Object(members) => {
                let parts = members.iter().map(member).collect();
                write!(shown, "{{{}}}", joined(parts))
            }
        }
    }
}

/// What is not there, or of another kind, fails the test that asks.
impl Json {
    pub fn get(&self, name: &str) -> Option<&Json> {
        let Json::Object(members) = self else {
            return None;
        };
        let member = members.iter().find(|(other, _)| other == name);
        member.map(|(_, value)| value)
    }

    #[track_caller]
    pub fn at(&self, name: &str) -> &Json {
        match self.get(name) {
            Some(value) => value,
            None => panic!("there is no '{name}' in {self}"),
        }
    }

    #[track_caller]
    pub fn index(&self, place: usize) -> &Json {
        match self.as_list().get(place) {
            Some(value) => value,
            None => panic!("there is no element {place} in {self}"),
        }
    }

    pub fn is_null(&self) -> bool {
        *self == Json::Null
    }

    #[track_caller]
    pub fn as_str(&self) -> &str {
        match self {
            Json::Text(text) => text,
            _ => panic!("{self} is no text"),
        }
    }

    #[track_caller]
    pub fn as_u64(&self) -> u64 {
        match *self {
            Json::Number(value) if value.fract() == 0.0 && (0.0..=EXACT).contains(&value) => {
                value as u64
            }
            _ => panic!("{self} is no whole number"),
        }
    }

    #[track_caller]
    pub fn as_bool(&self) -> bool {
        match *self {
            Json::Bool(value) => value,
            _ => panic!("{self} is neither true nor false"),
        }
    }

    #[track_caller]
    pub fn as_list(&self) -> &[Json] {
        match self {
            Json::List(list) => list,
            _ => panic!("{self} is no list"),
        }
    }
}

struct Reader<'a> {
    text: &'a str,
    place: usize,
}

impl Reader<'_> {
    fn wrong(&self, what: &str) -> String {
        format!("{what}, at byte {}", self.place)
    }

    fn rest(&self) -> &[u8] {
        &self.text.as_bytes()[self.place..]
    }

    fn peek(&self) -> Option<u8> {
        self.rest().first().copied()
    }

    /// Goes past this byte if it comes next.
    fn takes(&mut self, byte: u8) -> bool {
        let taken = self.peek() == Some(byte);
        self.place += usize::from(taken);
        taken
    }

    /// Goes past all bytes that are so; answers how many they are.
    fn skips(&mut self, so: impl Fn(&u8) -> bool) -> usize {
        let count = self.rest().iter().take_while(|byte| so(byte)).count();
        self.place += count;
        count
    }

    fn space(&mut self) {
        self.skips(|byte| b" \t\n\r".contains(byte));
    }

    fn value(&mut self, depth: usize) -> Result<Json, String> {
        self.space();
        match self.peek() {
            Some(b'[' | b'{') if depth == DEEPEST => Err(self.wrong("too many in each other")),
            Some(b'[') => self.list(depth + 1),
            Some(b'{') => self.object(depth + 1),
            Some(b'"') => self.string().map(Json::Text),
            Some(b'-' | b'0'..=b'9') => self.number(),
            Some(b't') => self.word("true", Json::Bool(true)),
            Some(b'f') => self.word("false", Json::Bool(false)),
            Some(b'n') => self.word("null", Json::Null),
            _ => Err(self.wrong("no value")),
        }
    }

    fn word(&mut self, word: &str, value: Json) -> Result<Json, String> {
        if !self.rest().starts_with(word.as_bytes()) {
            return Err(self.wrong("no value"));
        }
        self.place += word.len();
        Ok(value)
    }

    fn list(&mut self, depth: usize) -> Result<Json, String> {
        let mut list = Vec::new();
        let mut more = self.begins(b']');
        while more {
            list.push(self.value(depth)?);
            more = self.goes_on(b']')?;
        }
        Ok(Json::List(list))
    }

    fn object(&mut self, depth: usize) -> Result<Json, String> {
        let mut members: Vec<(String, Json)> = Vec::new();
        let mut more = self.begins(b'}');
        while more {
            let (name, value) = self.member(depth)?;
            if members.iter().any(|(other, _)| *other == name) {
                return Err(self.wrong(&format!("{} for the second time", quoted(&name))));
            }
            members.push((name, value));
            more = self.goes_on(b'}')?;
        }
        Ok(Json::Object(members))
    }

    fn member(&mut self, depth: usize) -> Result<(String, Json), String> {
        self.space();
        let name = self.string()?;
        self.space();
        if !self.takes(b':') {
            return Err(self.wrong("no colon"));
        }
        Ok((name, self.value(depth)?))
    }

    /// Goes past the bracket; answers whether there is anything before the other one.
    fn begins(&mut self, end: u8) -> bool {
        self.place += 1;
        self.space();
        !self.takes(end)
    }

    /// A comma, after which a value has to come, or the end.
    fn goes_on(&mut self, end: u8) -> Result<bool, String> {
        self.space();
        match (self.takes(b','), self.takes(end)) {
            (true, false) => Ok(true),
            (false, true) => Ok(false),
            (true, true) => Err(self.wrong("an end after a comma")),
            (false, false) => Err(self.wrong("neither a comma nor an end")),
        }
    }

    fn string(&mut self) -> Result<String, String> {
        if !self.takes(b'"') {
            return Err(self.wrong("no text"));
        }
        let mut string = String::new();
        loop {
            let start = self.place;
            self.skips(|byte| !matches!(byte, b'"' | b'\\' | ..b' '));
            string.push_str(&self.text[start..self.place]);
            if self.takes(b'"') {
                return Ok(string);
            }
            if !self.takes(b'\\') {
                return Err(self.wrong("a control character in a text, or no end of it"));
            }
            string.push(self.escape()?);
        }
    }

    fn escape(&mut self) -> Result<char, String> {
        let byte = self.peek().unwrap_or_default();
        let escaped = match byte {
            b'"' | b'\\' | b'/' => char::from(byte),
            b'b' => '\u{8}',
            b'f' => '\u{C}',
            b'n' => '\n',
            b'r' => '\r',
            b't' => '\t',
            b'u' => return self.numbered(),
            _ => return Err(self.wrong("no escape")),
        };
        self.place += 1;
        Ok(escaped)
    }

    /// Of what stands beyond 16 bits there are two halves.
    fn numbered(&mut self) -> Result<char, String> {
        let first = self.unit()?;
        let second = match first {
            0xD800..0xDC00 if self.takes(b'\\') => self.unit()?,
            _ => return self.whole(&[first]),
        };
        self.whole(&[first, second])
    }

    fn whole(&self, units: &[u16]) -> Result<char, String> {
        let text = String::from_utf16(units).ok();
        let mut characters = text.iter().flat_map(|text| text.chars());
        match (characters.next(), characters.next()) {
            (Some(one), None) => Ok(one),
            _ => Err(self.wrong("half a character")),
        }
    }

    /// A 'u' and four digits.
    fn unit(&mut self) -> Result<u16, String> {
        let digits = self.text.get(self.place + 1..self.place + 5);
        let digits = digits.filter(|digits| digits.bytes().all(|digit| digit.is_ascii_hexdigit()));
        let unit = digits.and_then(|digits| u16::from_str_radix(digits, 16).ok());
        match unit {
            Some(unit) if self.takes(b'u') => {
                self.place += 4;
                Ok(unit)
            }
            _ => Err(self.wrong("no four hex digits")),
        }
    }

    /// No digit may come after a leading 0: it is taken for something after the number.
    fn number(&mut self) -> Result<Json, String> {
        let start = self.place;
        self.takes(b'-');
        if !self.takes(b'0') {
            self.digits()?;
        }
        if self.takes(b'.') {
            self.digits()?;
        }
        if self.takes(b'e') || self.takes(b'E') {
            let _ = self.takes(b'+') || self.takes(b'-');
            self.digits()?;
        }
        let number: Option<f64> = self.text[start..self.place].parse().ok();
        let number = number.filter(|number| number.is_finite());
        number
            .map(Json::Number)
            .ok_or_else(|| self.wrong("a number that is too large"))
    }

    fn digits(&mut self) -> Result<(), String> {
        match self.skips(u8::is_ascii_digit) {
            0 => Err(self.wrong("no digit")),
            _ => Ok(()),
        }
    }
}

#[cfg(test)]
mod tests {
    use super::*;
    use std::panic::{self, UnwindSafe};

    fn text(text: &str) -> Json {
        Json::Text(text.to_string())
    }

    #[test]
    fn each_kind_is_read() {
        let json = r#" { "a" : [ ] , "b":[1,-0,0.5,-12.25e+1,2E-1,10e2], "":{}, "c":[true,false,null,"x"]} "#;
        let numbers = [1.0, 0.0, 0.5, -122.5, 0.2, 1000.0]
            .map(Json::Number)
            .to_vec();
        let words = vec![Json::Bool(true), Json::Bool(false), Json::Null, text("x")];
        let members = [
            ("a", Json::List(Vec::new())),
            ("b", Json::List(numbers)),
            ("", Json::Object(Vec::new())),
            ("c", Json::List(words)),
        ];
        let members = members.map(|(name, value)| (name.to_string(), value));
        assert_eq!(read(json), Ok(Json::Object(members.to_vec())));
    }

    #[test]
    fn a_text_is_read() {
        for (json, expected) in [
            (r#""""#, ""),
            (r#""\"\\\/\b\f\n\r\t""#, "\"\\/\u{8}\u{C}\n\r\t"),
            (r#""\u0041\u00e9\u20AC\u0000""#, "Aé€\0"),
            (r#""\ud83d\ude00 \uDBFF\uDFFF""#, "😀 \u{10FFFF}"),
            (r#""\uD7FF\uE000""#, "\u{D7FF}\u{E000}"),
            ("\"é€😀\u{7F}\u{2028}\"", "é€😀\u{7F}\u{2028}"),
        ] {
            assert_eq!(read(json), Ok(text(expected)), "{json}");
        }
    }

    /// Each of these words is none.
    fn refuses(words: &str) {
        for json in words.split_whitespace() {
            assert!(read(json).is_err(), "{json}");
            assert!(read(&format!("[{json}]")).is_err(), "[{json}]");
        }
    }

    #[test]
    fn what_is_no_value_is_refused() {
        refuses("tru True nul truefalse undefined NaN Infinity -Infinity 'a' a / /**/1 1// é");
        refuses(r#"[ ] [1 [1, [1,] [,1] [,] [1,,2] [1} [1]] ["a":1]"#);
        refuses(r#"{ } {"a" {"a": {"a":1 {"a":1, {"a":1,} {,} {"a"} {"a",1} {"a":1] {}x"#);
        refuses("{a:1} {1:1} {null:1} {[]:1} {\"a\"::1}");
        let spaced = [
            "1 2",
            "null null",
            "[1 2]",
            "[1, ]",
            "{\"a\" 1}",
            "{\"a\":1 \"b\":2}",
        ];
        let none = [
            "",
            " ",
            "1,",
            "\u{FEFF}1",
            "\u{A0}1",
            "\u{B}1",
            "1\u{C}",
            "1\0",
        ];
        for json in spaced.iter().chain(&none) {
            assert!(read(json).is_err(), "{json}");
        }
    }

    #[test]
    fn what_is_no_number_is_refused() {
        refuses("- +1 01 -01 00 -00 0123 .5 -.5 1. 1.e1 1e 1e+ 1E- 1e1.5 1.5.5 0x10 1_000 1a --1");
        refuses("1e999 -1e999 ٣");
    }

    #[test]
    fn what_is_no_text_is_refused() {
        refuses(r#"" "a "\" "\x41" "\'" "\0" "\é" "\U0041" "a"b" "a"" ""a"#);
        refuses(r#""\u" "\u004" "\u004g" "\u+041" "\u00é" "\u004é""#);
        refuses(r#""\ud83d" "\ude00" "\ud83d\ud83d" "\ude00\ud83d" "\ud83dx" "\ud83d\n""#);
        refuses(r#""\ud83d\u0041" "\ud83d\" "\ud83du""#);
        for control in '\0'..' ' {
            assert!(read(&format!("\"{control}\"")).is_err(), "{control:?}");
        }
    }

    #[test]
    fn a_name_comes_once() {
        assert!(read(r#"{"a":1,"b":{"a":2},"c":[{"a":3}]}"#).is_ok());
        let twice = read(r#"{"a":1,"\u0061":2}"#);
        assert_eq!(
            twice,
            Err("\"a\" for the second time, at byte 17".to_string())
        );
    }

    #[test]
    fn the_depth_is_bounded() {
        let nested = |depth| ["[".repeat(depth), "]".repeat(depth)].concat();
        assert!(read(&nested(DEEPEST)).is_ok());
        assert!(read(&nested(DEEPEST + 1)).is_err());
        assert!(read(&"[".repeat(1_000_000)).is_err());
        assert!(read(&"{\"a\":".repeat(1_000_000)).is_err());
    }

    #[test]
    fn what_is_written_is_read_the_same() {
        let all: String = ('\0'..'\u{300}')
            .chain("€\u{2028}😀\u{10FFFF}".chars())
            .collect();
        assert_eq!(read(&quoted(&all)), Ok(text(&all)));
        assert_eq!(quoted("a\"\\\n"), r#""a\"\\\u000a""#);
        let json = r#"{"a":[1,-0.5,1000,true,null,"é\""],"":{},"b":[]}"#;
        assert_eq!(read(json).unwrap().to_string(), json);
    }

    fn fails<T>(asking: impl FnOnce() -> T + UnwindSafe) -> bool {
        panic::catch_unwind(asking).is_err()
    }

    #[test]
    fn what_is_asked_for_is_there() {
        let json = read(r#"{"a":[1,"x",true,9007199254740992],"b":null,"c":1.5,"d":-1,"e":1e300}"#)
            .unwrap();
        let list = json.at("a");
        assert_eq!((list.index(0).as_u64(), list.index(1).as_str()), (1, "x"));
        assert_eq!(
            (list.index(2).as_bool(), list.index(3).as_u64()),
            (true, 1 << 53)
        );
        assert_eq!((list.as_list().len(), json.at("b").is_null()), (4, true));
        assert_eq!(
            (json.get("f"), list.get("a"), list.is_null()),
            (None, None, false)
        );
        assert!(fails(|| json.at("f").is_null()) && fails(|| list.index(4).is_null()));
        assert!(fails(|| json.index(0).is_null()) && fails(|| list.at("a").is_null()));
        assert!(
            ["c", "d", "e", "b"]
                .iter()
                .all(|name| fails(|| json.at(name).as_u64()))
        );
        assert!(
            fails(|| list.as_str().len())
                && fails(|| list.as_bool())
                && fails(|| json.as_list().len())
        );
    }
}
