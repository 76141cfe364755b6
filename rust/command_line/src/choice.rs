//! Methods and widths, as they are asked for.
use crate::fault::Fault;
use lesmutka::Method;

/// A decimal number of at most 32 bits. A larger one becomes the highest, which is no method and no
/// width either, and is shown by its digits.
#[derive(Clone, Copy)]
pub struct Small<'a> {
    pub value: u32,
    digits: &'a [u8],
}

impl<'a> Small<'a> {
    pub fn of(value: u32) -> Small<'a> {
        Small { value, digits: b"" }
    }

    /// The number of a word, by the library's reader.
    fn read(word: &'a [u8]) -> Option<Small<'a>> {
        let zeros = word.iter().take_while(|&&byte| byte == b'0').count();
        let mut room = vec![0; lesmutka::text_room(word.len())];
        let bytes = lesmutka::decimal(word, &mut room).ok()?;
        let mut number = [0; 4];
        match number.get_mut(..bytes.len()) {
            Some(low) => low.copy_from_slice(bytes),
            None => number = [u8::MAX; 4],
        }
        Some(Small {
            value: u32::from_le_bytes(number),
            digits: &word[zeros..],
        })
    }

    /// A width, which is such a number.
    pub fn width(word: &'a [u8]) -> Result<Small<'a>, Fault> {
        Small::read(word).ok_or_else(|| Fault::word("no width, which is a decimal number", word))
    }

    /// The digits of a number that is larger than its value.
    pub fn large(self) -> Option<&'a [u8]> {
        Some(self.digits).filter(|digits| self.value == u32::MAX && !digits.is_empty())
    }
}

/// A method and a width; 0 if there is no width.
#[derive(Clone, Copy)]
pub struct Choice<'a> {
    pub method: Small<'a>,
    pub width: Small<'a>,
}

impl<'a> Choice<'a> {
    pub fn of(method: Method) -> Choice<'a> {
        Choice {
            method: Small::of(method.number()),
            width: Small::of(method.width()),
        }
    }

    /// A method by its name or number, and a width if there is one.
    pub fn read(words: &[&'a [u8]]) -> Result<Choice<'a>, Fault> {
        let (method, width) = match words {
            [method] => (*method, None),
            [method, width] => (*method, Some(*width)),
            [_, _, more, ..] => return Err(Fault::word("a method has one width and no more words", more)),
            [] => return Err(Fault::Malformed("the method is missing".to_string())),
        };
        let named = methods().find(|known| known.name().as_bytes().eq_ignore_ascii_case(method));
        let method = match named {
            Some(known) => Small::of(known.number()),
            None => Small::read(method).ok_or_else(|| {
                let names: Vec<&str> = methods().map(|known| known.name()).collect();
                Fault::word(&format!("no such method ({})", names.join(", ")), method)
            })?,
        };
        let width = match width {
            Some(word) => Small::width(word)?,
            None => Small::of(0),
        };
        Ok(Choice { method, width })
    }

    /// The method with this number, at its least width.
    pub fn named(self) -> Option<Method> {
        methods().find(|known| known.number() == self.method.value)
    }

    /// What is allowed, where this is refused.
    pub fn allowed(self) -> String {
        match self.named() {
            Some(method) => format!("{} {}", method.name(), widths(method)),
            None => {
                let all: Vec<String> = methods().map(|m| format!("{} ({})", m.name(), m.number())).collect();
                format!("the methods are {}", all.join(", "))
            }
        }
    }
}

/// The methods, each once, at its least width.
pub fn methods() -> impl Iterator<Item = Method> {
    let all = Method::ALL;
    let is_new = move |&i: &usize| i == 0 || all[i].number() != all[i - 1].number();
    (0..all.len()).filter(is_new).map(move |i| all[i])
}

/// The widths that a method takes.
pub fn widths(method: Method) -> String {
    let last = Method::ALL.iter().rev().find(|other| other.number() == method.number());
    match last.map_or(0, |last| last.width()) {
        0 => "takes no width".to_string(),
        last => format!("takes a width from {} to {}", method.width(), last),
    }
}
