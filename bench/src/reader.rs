//! Reads the parts of a JSON text, for the readers without serde.

use crate::program::Flaw;
use std::borrow::Cow;

const MOST_DEPTH: usize = 127;

/// The bytes that are not taken as they are in a text.
const IS_STOP: [bool; 256] = {
    let mut is_stop = [false; 256];
    let mut byte = 0;
    while byte < 0x20 {
        is_stop[byte] = true;
        byte += 1;
    }
    is_stop[b'"' as usize] = true;
    is_stop[b'\\' as usize] = true;
    is_stop
};

#[derive(Clone)]
pub struct Reader<'t> {
    text: &'t str,
    at: usize,
    depth: usize,
}

impl<'t> Reader<'t> {
    pub fn new(bytes: &'t [u8]) -> Result<Reader<'t>, Flaw> {
        let text = std::str::from_utf8(bytes).map_err(|_| Flaw::NotJson)?;
        Ok(Reader {
            text,
            at: 0,
            depth: 0,
        })
    }

    /// The next byte that is no space.
    pub fn peek(&mut self) -> Option<u8> {
        let bytes = self.text.as_bytes();
        while let Some(byte) = bytes.get(self.at) {
            if !matches!(byte, b' ' | b'\n' | b'\t' | b'\r') {
                return Some(*byte);
            }
            self.at += 1;
        }
        None
    }

    /// Goes past this byte, if it is the next one.
    fn goes_past(&mut self, byte: u8) -> bool {
        let is_next = self.peek() == Some(byte);
        self.at += usize::from(is_next);
        is_next
    }

    fn expect(&mut self, byte: u8) -> Result<(), Flaw> {
        if self.goes_past(byte) {
            Ok(())
        } else {
            Err(Flaw::NotJson)
        }
    }

    /// There is nothing more.
    pub fn end(&mut self) -> Result<(), Flaw> {
        if self.peek().is_none() {
            Ok(())
        } else {
            Err(Flaw::NotJson)
        }
    }

    fn open(&mut self, byte: u8) -> Result<(), Flaw> {
        self.expect(byte)?;
        self.depth += 1;
        if self.depth > MOST_DEPTH {
            Err(Flaw::NotJson)
        } else {
            Ok(())
        }
    }

    /// Reads an array, each item by the given way.
    pub fn list(
        &mut self,
        mut item: impl FnMut(&mut Reader<'t>) -> Result<(), Flaw>,
    ) -> Result<(), Flaw> {
        self.open(b'[')?;
        if !self.goes_past(b']') {
            item(self)?;
            while self.goes_past(b',') {
                item(self)?;
            }
            self.expect(b']')?;
        }
        self.depth -= 1;
        Ok(())
    }

    /// Reads an object, the value of each key by the given way.
    pub fn object(
        &mut self,
        mut value: impl FnMut(&mut Reader<'t>, Cow<'t, str>) -> Result<(), Flaw>,
    ) -> Result<(), Flaw> {
        self.open(b'{')?;
        if !self.goes_past(b'}') {
            loop {
                let key = self.text()?;
                self.expect(b':')?;
                value(self, key)?;
                if !self.goes_past(b',') {
                    break;
                }
            }
            self.expect(b'}')?;
        }
        self.depth -= 1;
        Ok(())
    }

    /// The next such byte of a text, and its place.
    fn stop(&self) -> Result<(usize, u8), Flaw> {
        let rest = &self.text.as_bytes()[self.at..];
        let is_stop = |byte: &u8| IS_STOP[usize::from(*byte)];
        let length = rest.iter().position(is_stop).ok_or(Flaw::NotJson)?;
        Ok((self.at + length, rest[length]))
    }

    pub fn text(&mut self) -> Result<Cow<'t, str>, Flaw> {
        self.expect(b'"')?;
        let (stop, byte) = self.stop()?;
        if byte != b'"' {
            return self.text_with_escapes().map(Cow::Owned);
        }
        let text = &self.text[self.at..stop];
        self.at = stop + 1;
        Ok(Cow::Borrowed(text))
    }

    fn text_with_escapes(&mut self) -> Result<String, Flaw> {
        let mut text = String::new();
        loop {
            let (stop, byte) = self.stop()?;
            text.push_str(&self.text[self.at..stop]);
            self.at = stop + 1;
            match byte {
                b'"' => return Ok(text),
                b'\\' => text.push(self.escape()?),
                _ => return Err(Flaw::NotJson),
            }
        }
    }

    fn escape(&mut self) -> Result<char, Flaw> {
        let byte = *self.text.as_bytes().get(self.at).ok_or(Flaw::NotJson)?;
        self.at += 1;
        Ok(match byte {
            b'"' | b'\\' | b'/' => byte.into(),
            b'b' => '\u{8}',
            b'f' => '\u{c}',
            b'n' => '\n',
            b'r' => '\r',
            b't' => '\t',
            b'u' => return self.escaped_code(),
            _ => return Err(Flaw::NotJson),
        })
    }

    fn escaped_code(&mut self) -> Result<char, Flaw> {
        let high = self.four_digits()?;
        let code = if (0xd800..0xdc00).contains(&high) {
            if !self.text[self.at..].starts_with("\\u") {
                return Err(Flaw::NotJson);
            }
            self.at += 2;
            let low = self.four_digits()?.wrapping_sub(0xdc00);
            if low > 0x3ff {
                return Err(Flaw::NotJson);
            }
            0x10000 + ((high - 0xd800) << 10) + low
        } else {
            high
        };
        char::from_u32(code).ok_or(Flaw::NotJson)
    }

    fn four_digits(&mut self) -> Result<u32, Flaw> {
        let digits = self.text.get(self.at..self.at + 4).ok_or(Flaw::NotJson)?;
        if !digits.bytes().all(|byte| byte.is_ascii_hexdigit()) {
            return Err(Flaw::NotJson);
        }
        self.at += 4;
        u32::from_str_radix(digits, 16).map_err(|_| Flaw::NotJson)
    }

    fn digits(&mut self) -> Result<&'t str, Flaw> {
        let rest = &self.text[self.at..];
        let length = rest.bytes().take_while(u8::is_ascii_digit).count();
        self.at += length;
        if length == 0 {
            Err(Flaw::NotJson)
        } else {
            Ok(&rest[..length])
        }
    }

    fn has_any(&mut self, bytes: &[u8]) -> bool {
        let has = self
            .text
            .as_bytes()
            .get(self.at)
            .is_some_and(|byte| bytes.contains(byte));
        self.at += usize::from(has);
        has
    }

    /// A number. `None` where it has a sign, a fraction or an exponent, or more than 64 bits.
    pub fn number(&mut self) -> Result<Option<u64>, Flaw> {
        let mut is_whole = !self.has_any(b"-");
        let digits = self.digits()?;
        if digits.len() > 1 && digits.starts_with('0') {
            return Err(Flaw::NotJson);
        }
        if self.has_any(b".") {
            is_whole = false;
            self.digits()?;
        }
        if self.has_any(b"eE") {
            is_whole = false;
            self.has_any(b"+-");
            self.digits()?;
        }
        Ok(if is_whole { digits.parse().ok() } else { None })
    }

    /// One of the words true, false and null.
    pub fn word(&mut self) -> Result<Option<bool>, Flaw> {
        let words = [("true", Some(true)), ("false", Some(false)), ("null", None)];
        let rest = &self.text.as_bytes()[self.at..];
        let found = words
            .into_iter()
            .find(|(word, _)| rest.starts_with(word.as_bytes()));
        let (word, value) = found.ok_or(Flaw::NotJson)?;
        self.at += word.len();
        Ok(value)
    }
}
