//! Replaces the kit's `json`: a writer of JSON.

use crate::alloc::AllocError;
use crate::crates::itoa::write_digits;
use crate::vec::Vec;

/// A writer of JSON that appends to a vector of bytes one token at a time.
///
/// The writer adds the commas and the colons. The caller is responsible for the nesting. Each
/// method that writes a token returns `AllocError` if memory runs out. In this case, no part of the
/// token is written.
#[derive(Debug)]
pub struct Writer {
    out: Vec<u8>,
    /// Whether a comma has to precede the next value.
    after_value: bool,
}

impl Writer {
    /// Returns a writer that appends to `out`.
    pub fn new(out: Vec<u8>) -> Writer {
        Writer {
            out,
            after_value: false,
        }
    }

    /// Returns the vector of bytes, including the tokens that were written.
    pub fn into_inner(self) -> Vec<u8> {
        self.out
    }

    /// Writes the beginning of an object.
    ///
    /// # Errors
    ///
    /// Returns `AllocError` if memory runs out.
    pub fn begin_object(&mut self) -> Result<(), AllocError> {
        self.token(self.after_value, b"{", false)
    }

    /// Writes the end of an object.
    ///
    /// # Errors
    ///
    /// Returns `AllocError` if memory runs out.
    pub fn end_object(&mut self) -> Result<(), AllocError> {
        self.token(false, b"}", true)
    }

    /// Writes the beginning of an array.
    ///
    /// # Errors
    ///
    /// Returns `AllocError` if memory runs out.
    pub fn begin_array(&mut self) -> Result<(), AllocError> {
        self.token(self.after_value, b"[", false)
    }

    /// Writes the end of an array.
    ///
    /// # Errors
    ///
    /// Returns `AllocError` if memory runs out.
    pub fn end_array(&mut self) -> Result<(), AllocError> {
        self.token(false, b"]", true)
    }

    /// Writes `name` as the name of a member of an object.
    ///
    /// # Errors
    ///
    /// Returns `AllocError` if memory runs out.
    pub fn key(&mut self, name: &str) -> Result<(), AllocError> {
        self.quoted(name, b"\":", false)
    }

    /// Writes `text` as a value, escaped and in quotes.
    ///
    /// # Errors
    ///
    /// Returns `AllocError` if memory runs out.
    pub fn string(&mut self, text: &str) -> Result<(), AllocError> {
        self.quoted(text, b"\"", true)
    }

    /// Writes `number` as a value, in decimal.
    ///
    /// # Errors
    ///
    /// Returns `AllocError` if memory runs out.
    pub fn u64(&mut self, number: u64) -> Result<(), AllocError> {
        let mut digits = [0; 20];
        let at = write_digits(number, &mut digits, 20);
        self.token(self.after_value, &digits[at..], true)
    }

    /// Writes `true` or `false` as a value.
    ///
    /// # Errors
    ///
    /// Returns `AllocError` if memory runs out.
    pub fn boolean(&mut self, value: bool) -> Result<(), AllocError> {
        let text: &[u8] = if value { b"true" } else { b"false" };
        self.token(self.after_value, text, true)
    }

    /// Writes `null` as a value.
    ///
    /// # Errors
    ///
    /// Returns `AllocError` if memory runs out.
    pub fn null(&mut self) -> Result<(), AllocError> {
        self.token(self.after_value, b"null", true)
    }

    /// Writes the token `text`, preceded by a comma if `comma` is `true`. `is_value` states whether
    /// a comma has to precede the next value.
    fn token(&mut self, comma: bool, text: &[u8], is_value: bool) -> Result<(), AllocError> {
        self.out.reserve(text.len() + 1)?;
        if comma {
            self.out.push(b',')?;
        }
        self.out.extend_from_slice(text)?;
        self.after_value = is_value;
        Ok(())
    }

    /// Writes `text`, escaped, between an opening quote and `close`, which begins with the closing
    /// quote. `is_value` states whether a comma has to precede the next value.
    fn quoted(&mut self, text: &str, close: &[u8], is_value: bool) -> Result<(), AllocError> {
        let len = self.out.len();
        let done = self.escaped(text, close);
        if done.is_err() {
            self.out.truncate(len);
        } else {
            self.after_value = is_value;
        }
        done
    }

    fn escaped(&mut self, text: &str, close: &[u8]) -> Result<(), AllocError> {
        self.out.reserve(text.len() + 2 + close.len())?;
        if self.after_value {
            self.out.push(b',')?;
        }
        self.out.push(b'"')?;
        let mut plain = 0;
        for (at, byte) in text.bytes().enumerate() {
            if byte < 0x20 || byte == b'"' || byte == b'\\' {
                self.out.extend_from_slice(&text.as_bytes()[plain..at])?;
                self.escape(byte)?;
                plain = at + 1;
            }
        }
        self.out.extend_from_slice(&text.as_bytes()[plain..])?;
        self.out.extend_from_slice(close)
    }

    /// Writes the escape sequence of `byte`, which must be a quote, a backslash or a control
    /// character.
    fn escape(&mut self, byte: u8) -> Result<(), AllocError> {
        let letter = match byte {
            b'"' | b'\\' => byte,
            8 => b'b',
            12 => b'f',
            b'\n' => b'n',
            b'\r' => b'r',
            b'\t' => b't',
            _ => {
                let half = |half: u8| b"0123456789abcdef"[half as usize];
                let code = [b'\\', b'u', b'0', b'0', half(byte >> 4), half(byte & 15)];
                return self.out.extend_from_slice(&code);
            }
        };
        self.out.extend_from_slice(&[b'\\', letter])
    }
}
