//! Divisions in Rattle sources by anything but a number that stands there. Document 02, point 4: "nothing
//! in planning may divide, or take a remainder, by anything but a fixed number".
//!
//! Only the code is looked at. Left out are comments from `//` on, texts and characters in quotes, imports
//! of the proofs (`ghost use ..;`) and contracts (`requires { .. }`, `ensures name { .. }`, each at the
//! beginning of its line, where the formatter puts it). Whatever else is no code is looked at, too: a
//! division in it is found.

/// A place at which a source breaks the rule.
#[derive(Clone, Debug, PartialEq, Eq)]
pub struct Found {
    /// The number of the line, from 1.
    pub line: usize,
    /// The division, with the tokens on either side of it.
    pub what: String,
}

/// The places of a source that divide, or take a remainder, by anything but a number that stands there,
/// and those that call a function of Rust that divides.
pub fn divisions(source: &str) -> Vec<Found> {
    let code = code(source);
    let tokens = tokens(&code);
    let texts: Vec<&str> = tokens.iter().map(|token| token.text).collect();
    let mut found = Vec::new();
    for (place, token) in tokens.iter().enumerate() {
        let (before, from) = texts.split_at(place);
        let before = before.last().unwrap_or(&"");
        if breaks_rule(before, from) {
            found.push(Found {
                line: token.line,
                what: format!("{before} {} {}", token.text, from.get(1).unwrap_or(&"")),
            });
        }
    }
    found
}

/// Whether the first of these tokens divides by anything but a number, or begins a call that divides.
/// In `x /= 2 + n` all that stands up to the end of the statement divides.
fn breaks_rule(before: &str, from: &[&str]) -> bool {
    match from {
        ["/" | "%", number, ".", next, ..] => !is_number(number) || is_name(next),
        ["/" | "%", number, ..] => !is_number(number),
        ["/=" | "%=", number, ";" | "," | "}", ..] => !is_number(number),
        ["/" | "%" | "/=" | "%=", ..] => true,
        [name, "(", ..] => matches!(before, "." | ":") && divides(name),
        _ => false,
    }
}

/// Whether the curly brackets of the code match. Where they do not, some code was left out.
pub fn brackets_match(source: &str) -> bool {
    let mut open = 0;
    for c in code(source).chars() {
        match c {
            '{' => open += 1,
            '}' if open == 0 => return false,
            '}' => open -= 1,
            _ => {}
        }
    }
    open == 0
}

/// Whether a token is a number that stands there.
fn is_number(token: &str) -> bool {
    token.starts_with(|c: char| c.is_ascii_digit())
}

/// Whether a token is a name.
fn is_name(token: &str) -> bool {
    token.starts_with(is_of_name) && !is_number(token)
}

/// Whether a function of Rust with this name divides, as `rem_euclid` and `is_multiple_of` do.
fn divides(name: &str) -> bool {
    let mut parts = name.split('_');
    parts.any(|part| matches!(part, "div" | "rem" | "multiple"))
}

/// A name, a number, `/=`, `%=` or another sign.
struct Token<'a> {
    line: usize,
    text: &'a str,
}

/// The tokens of code.
fn tokens(code: &str) -> Vec<Token<'_>> {
    let mut tokens = Vec::new();
    for (number, line) in code.lines().enumerate() {
        let mut rest = line.trim_start();
        while let Some(first) = rest.chars().next() {
            let length = match first {
                _ if is_of_name(first) => rest.find(|c| !is_of_name(c)).unwrap_or(rest.len()),
                '/' | '%' if rest[1..].starts_with('=') => 2,
                _ => first.len_utf8(),
            };
            tokens.push(Token {
                line: number + 1,
                text: &rest[..length],
            });
            rest = rest[length..].trim_start();
        }
    }
    tokens
}

/// Whether a character may stand in a name or a number.
fn is_of_name(c: char) -> bool {
    c.is_alphanumeric() || c == '_'
}

/// The code of a source: all that is left out is blank, and each line stays where it is.
fn code(source: &str) -> String {
    let mut code = String::new();
    let mut rest = source;
    while let Some(first) = rest.chars().next() {
        let line = code.rsplit('\n').next().unwrap_or("");
        let begins_line = line.trim().is_empty();
        let length = left_out(rest, begins_line).unwrap_or(0);
        if length == 0 {
            code.push(first);
            rest = &rest[first.len_utf8()..];
        } else {
            let blank = |c| if c == '\n' { '\n' } else { ' ' };
            code.extend(rest[..length].chars().map(blank));
            rest = &rest[length..];
        }
    }
    code
}

/// How many bytes at the front of what is left of a source are no code. Nothing where code begins, or where
/// no end is found of what begins.
fn left_out(rest: &str, begins_line: bool) -> Option<usize> {
    match rest.as_bytes()[0] {
        b'/' if rest.starts_with("//") => Some(rest.find('\n').unwrap_or(rest.len())),
        b'"' => quoted(rest),
        b'\'' => character(rest),
        b'g' if begins_line && rest.starts_with("ghost use ") => Some(rest.find(';')? + 1),
        b'r' | b'e' if begins_line => contract(rest),
        _ => None,
    }
}

/// The bytes of a text in quotes.
fn quoted(rest: &str) -> Option<usize> {
    let mut chars = rest.char_indices();
    let (_, quote) = chars.next()?;
    while let Some((place, c)) = chars.next() {
        match c {
            '\\' => drop(chars.next()),
            _ if c == quote => return Some(place + 1),
            _ => {}
        }
    }
    None
}

/// The bytes of a character in quotes, and nothing where a lifetime begins.
fn character(rest: &str) -> Option<usize> {
    let mut chars = rest.chars().skip(1);
    let escaped = chars.next()? == '\\';
    if escaped || chars.next()? == '\'' {
        quoted(rest)
    } else {
        None
    }
}

/// The bytes of a contract, with a name or without.
fn contract(rest: &str) -> Option<usize> {
    let mut words = rest[..rest.find('{')?].split_whitespace();
    let begins = matches!(words.next(), Some("requires" | "ensures"));
    if !begins || words.count() > 1 {
        return None;
    }
    let mut open = 0;
    for (place, c) in rest.char_indices() {
        match c {
            '{' => open += 1,
            '}' if open == 1 => return Some(place + 1),
            '}' => open -= 1,
            _ => {}
        }
    }
    None
}
