//! From characters to tokens, each with its place.

use crate::faults::{shown, Fault, Place, BYTE_ORDER_MARK};

#[derive(Clone, Debug, PartialEq, Eq)]
pub enum Token<'a> {
    Word(&'a str),
    Number(u16),
    Text(Vec<u8>),
    Sign(&'static str),
    /// What no token begins with, or a number that is too high; its fault has been told.
    Bad,
    /// The end of a source.
    End,
}

/// The signs, a longer one before its own beginning.
const SIGNS: [&str; 14] = [
    "::", ":", "[", "]", "(", ")", ",", ";", "=", "|", "*", "?", "+", "@",
];

/// All tokens of a source, the last one `End`; what is wrong is added to `faults`.
pub fn tokens<'a>(text: &'a str, file: usize, faults: &mut Vec<Fault>) -> Vec<(Token<'a>, Place)> {
    let at = match text.strip_prefix(BYTE_ORDER_MARK) {
        Some(rest) => text.len() - rest.len(),
        None => 0,
    };
    let mut lexer = Lexer {
        text,
        at,
        file,
        faults,
    };
    let mut tokens = Vec::new();
    loop {
        lexer.skip_blanks();
        let start = lexer.at;
        let token = lexer.token();
        let last = token == Token::End;
        tokens.push((token, lexer.place(start)));
        if last {
            return tokens;
        }
    }
}

struct Lexer<'a, 'f> {
    text: &'a str,
    at: usize,
    file: usize,
    faults: &'f mut Vec<Fault>,
}

impl<'a> Lexer<'a, '_> {
    fn rest(&self) -> &'a str {
        &self.text[self.at..]
    }

    fn peek(&self) -> Option<char> {
        self.rest().chars().next()
    }

    fn next(&mut self) -> Option<char> {
        let c = self.peek()?;
        self.at += c.len_utf8();
        Some(c)
    }

    /// The characters from here on for which `wanted` holds.
    fn run(&mut self, wanted: impl Fn(char) -> bool) -> &'a str {
        let all = self.rest();
        let length = all.find(|c| !wanted(c)).unwrap_or(all.len());
        self.at += length;
        &all[..length]
    }

    /// From `start` to here.
    fn place(&self, start: usize) -> Place {
        Place {
            file: self.file,
            start,
            end: self.at,
        }
    }

    fn skip_blanks(&mut self) {
        self.run(char::is_whitespace);
        while self.peek() == Some('#') {
            self.run(|c| c != '\n');
            self.run(char::is_whitespace);
        }
    }

    fn token(&mut self) -> Token<'a> {
        let Some(c) = self.peek() else {
            return Token::End;
        };
        if starts_word(c) {
            return Token::Word(self.run(continues_word));
        }
        if c.is_ascii_digit() {
            return self.number();
        }
        if c == '"' {
            return self.text();
        }
        let rest = self.rest();
        let Some(sign) = SIGNS.into_iter().find(|sign| rest.starts_with(sign)) else {
            return self.bad(c);
        };
        self.at += sign.len();
        Token::Sign(sign)
    }

    fn number(&mut self) -> Token<'a> {
        let start = self.at;
        let digits = self.run(continues_word);
        match digits.parse() {
            Ok(number) => Token::Number(number),
            Err(_) => {
                let found = shown(digits);
                let message = format!("expected a number from 0 to 65535, found {found}");
                self.faults.push(self.place(start).fault(message));
                Token::Bad
            }
        }
    }

    /// Characters without a use, all that stand together; the same one is told once.
    fn bad(&mut self, first: char) -> Token<'a> {
        let start = self.at;
        self.run(is_bad);
        let message = format!("the character {first:?} has no use here");
        if self.faults.iter().any(|fault| fault.message == message) {
            return Token::Bad;
        }
        let fault = self.place(start).fault(message);
        self.faults.push(match hint_for(first) {
            Some(hint) => fault.hint(hint),
            None => fault,
        });
        Token::Bad
    }

    fn text(&mut self) -> Token<'a> {
        let start = self.at;
        self.next();
        let mut bytes = Vec::new();
        loop {
            let at = self.at;
            match self.peek() {
                None | Some('\n') => {
                    let message = "this text has no closing quote on its line";
                    self.faults.push(self.place(start).fault(message));
                    return Token::Text(bytes);
                }
                Some(_) => {}
            }
            match self.next() {
                Some('"') => return Token::Text(bytes),
                Some('\\') => bytes.push(self.escape(at)),
                Some(c) => bytes.extend(c.encode_utf8(&mut [0; 4]).bytes()),
                None => return Token::Text(bytes),
            }
        }
    }

    /// The byte of an escape whose backslash stood at `start`; 0 for none.
    fn escape(&mut self, start: usize) -> u8 {
        let byte = match self.peek() {
            Some('n') => Some(b'\n'),
            Some('r') => Some(b'\r'),
            Some('t') => Some(b'\t'),
            Some(c @ ('"' | '\\')) => Some(c as u8),
            Some('x') => self.hex_byte(),
            _ => None,
        };
        if self.peek().is_some_and(|c| c != '\n') {
            self.next();
        }
        byte.unwrap_or_else(|| {
            let message = r#"expected one of \" \\ \n \r \t and \xHH"#;
            self.faults.push(self.place(start).fault(message));
            0
        })
    }

    /// The byte of `xHH`; its last character is left to be passed over.
    fn hex_byte(&mut self) -> Option<u8> {
        let digits = self.rest().get(1..3)?;
        let plain = digits.bytes().all(|byte| byte.is_ascii_hexdigit());
        let byte = u8::from_str_radix(digits, 16).ok().filter(|_| plain)?;
        self.at += 2;
        Some(byte)
    }
}

fn starts_word(c: char) -> bool {
    c.is_ascii_alphabetic() || c == '_'
}

fn continues_word(c: char) -> bool {
    starts_word(c) || c.is_ascii_digit() || c == '-'
}

fn is_bad(c: char) -> bool {
    let useful = c.is_whitespace() || continues_word(c) && c != '-' || "\"#".contains(c);
    !useful && !SIGNS.iter().any(|sign| sign.starts_with(c))
}

/// What the paper, or another language, writes with such a character.
fn hint_for(c: char) -> Option<&'static str> {
    Some(match c {
        '/' => {
            "the paper's `x/child` is written `children(x)`, and `x/child::a` is `children(x) :: a`"
        }
        '\'' | '‘' | '’' | '“' | '”' => "a text stands between quotes of this kind: \"",
        '∈' => "the paper's `for x ∈ q` is written `for x in q`",
        '≈' => "the paper's `q ≈ q` is written `q = q`",
        '∗' => "a star is written `*`",
        '{' | '}' => "brackets are `[ ]` and `( )`",
        '$' => "variables are written without a `$`",
        _ => return None,
    })
}
