//! JSON that is known to be right, read. A test of the crate `cf-graph` has this file, too.
use std::iter::Peekable;
use std::str::Chars;

#[derive(Debug)]
pub(crate) enum Json {
    True,
    Number(i64),
    Text(String),
    List(Vec<Json>),
    Object(Vec<(String, Json)>),
}

impl Json {
    pub(crate) fn parse(text: &str) -> Json {
        read(&mut text.chars().peekable())
    }
}

type Letters<'a> = Peekable<Chars<'a>>;

fn read(letters: &mut Letters<'_>) -> Json {
    match next(letters) {
        '{' => Json::Object(all(letters, '}', |letters| {
            assert_eq!(next(letters), '"');
            let name = string(letters);
            assert_eq!(next(letters), ':');
            (name, read(letters))
        })),
        '[' => Json::List(all(letters, ']', read)),
        '"' => Json::Text(string(letters)),
        first => {
            let mut word = String::from(first);
            while let Some(letter) = letters.next_if(char::is_ascii_alphanumeric) {
                word.push(letter);
            }
            if word == "true" {
                return Json::True;
            }
            Json::Number(word.parse().expect("a number"))
        }
    }
}

/// The next letter that isn't a blank.
fn next(letters: &mut Letters<'_>) -> char {
    while letters.next_if(|letter| letter.is_whitespace()).is_some() {}
    letters.next().expect("it goes on")
}

/// What stands up to this end, with commas between.
fn all<T>(letters: &mut Letters<'_>, end: char, read: impl Fn(&mut Letters<'_>) -> T) -> Vec<T> {
    let mut items = Vec::new();
    loop {
        let mut ahead = letters.clone();
        let first = next(&mut ahead);
        if first == end || first == ',' {
            *letters = ahead;
        }
        if first == end {
            return items;
        }
        items.push(read(letters));
    }
}

/// The rest of a string, whose letters beyond 16 bits stand as they are or as two.
fn string(letters: &mut Letters<'_>) -> String {
    let mut units: Vec<u16> = Vec::new();
    loop {
        let letter = match letters.next().expect("it goes on") {
            '"' => return String::from_utf16(&units).expect("whole letters"),
            '\\' => match letters.next().expect("it goes on") {
                'u' => {
                    let code: String = letters.by_ref().take(4).collect();
                    units.push(u16::from_str_radix(&code, 16).expect("four digits"));
                    continue;
                }
                'n' => '\n',
                'r' => '\r',
                't' => '\t',
                'b' => '\u{8}',
                'f' => '\u{c}',
                other => other,
            },
            letter => letter,
        };
        units.extend_from_slice(letter.encode_utf16(&mut [0; 2]));
    }
}
