//! The methods, by name and by number.
use crate::{is_blank, small, Refusal, FIXED_WINDOW_BITS, LARGEST_WIDTH, LEAST_WIDTH, SLIDING_WINDOW_BITS};
use core::fmt;
use core::str::FromStr;

/// How to plan.
///
/// It prints as its name, then its width if it has one, and is read from that, in capitals or not; the
/// number may stand in place of the name. Blanks separate the two, and a width left out is 0.
///
/// ```
/// use lesmutka::Method;
///
/// assert_eq!("sliding 4".parse(), Ok(Method::SlidingWindows(4)));
/// assert_eq!("3 4".parse(), Ok(Method::SlidingWindows(4)));
/// assert_eq!("wide-naf 5".parse(), Ok(Method::WideNaf(5)));
/// assert_eq!(Method::SlidingWindows(4).to_string(), "sliding 4");
/// assert_eq!(Method::try_from((4, 0)), Ok(Method::Naf));
/// assert!("sliding".parse::<Method>().is_err());
/// ```
#[derive(Clone, Copy, Debug, PartialEq, Eq, Hash)]
#[non_exhaustive]
pub enum Method {
    /// 1: double for each bit below the top, add for each 1.
    Binary,
    /// 2: windows of this many bits, 1 to [`FIXED_WINDOW_BITS`], cut from the low end.
    FixedWindows(u32),
    /// 3: windows of at most this many bits, 1 to [`SLIDING_WINDOW_BITS`], that begin and end in 1.
    SlidingWindows(u32),
    /// 4: the non-adjacent form's digits, from the top.
    Naf,
    /// 5: the digits of the NAF of this width, [`LEAST_WIDTH`] to [`LARGEST_WIDTH`], from the top.
    WideNaf(u32),
    /// 6: the digits of the modified NAF, from the top.
    ModifiedNaf,
}

/// How many choices of a method and its width there are.
const CHOICES: usize = 3 + (FIXED_WINDOW_BITS + SLIDING_WINDOW_BITS + LARGEST_WIDTH + 1 - LEAST_WIDTH) as usize;

const fn choices() -> [Method; CHOICES] {
    let mut all = [Method::Binary; CHOICES];
    let mut next = 1;
    let mut width = 1;
    while width <= FIXED_WINDOW_BITS {
        all[next] = Method::FixedWindows(width);
        next += 1;
        width += 1;
    }
    width = 1;
    while width <= SLIDING_WINDOW_BITS {
        all[next] = Method::SlidingWindows(width);
        next += 1;
        width += 1;
    }
    all[next] = Method::Naf;
    next += 1;
    width = LEAST_WIDTH;
    while width <= LARGEST_WIDTH {
        all[next] = Method::WideNaf(width);
        next += 1;
        width += 1;
    }
    all[next] = Method::ModifiedNaf;
    all
}

impl Method {
    /// Every method with every width that it allows, in the order of their numbers.
    pub const ALL: &'static [Method] = &choices();

    /// The name: `binary`, `fixed`, `sliding`, `naf`, `wide-naf` or `modified-naf`.
    pub const fn name(self) -> &'static str {
        match self {
            Method::Binary => "binary",
            Method::FixedWindows(_) => "fixed",
            Method::SlidingWindows(_) => "sliding",
            Method::Naf => "naf",
            Method::WideNaf(_) => "wide-naf",
            Method::ModifiedNaf => "modified-naf",
        }
    }

    /// The number, 1 to 6.
    pub const fn number(self) -> u32 {
        match self {
            Method::Binary => 1,
            Method::FixedWindows(_) => 2,
            Method::SlidingWindows(_) => 3,
            Method::Naf => 4,
            Method::WideNaf(_) => 5,
            Method::ModifiedNaf => 6,
        }
    }

    /// The width, 0 for the methods without.
    pub const fn width(self) -> u32 {
        match self {
            Method::FixedWindows(width) | Method::SlidingWindows(width) | Method::WideNaf(width) => width,
            Method::Binary | Method::Naf | Method::ModifiedNaf => 0,
        }
    }
}

/// A number and a width, as the library takes them.
impl TryFrom<(u32, u32)> for Method {
    type Error = Refusal;

    fn try_from((number, width): (u32, u32)) -> Result<Method, Refusal> {
        let is_it = |method: &Method| (method.number(), method.width()) == (number, width);
        let found = Method::ALL.iter().copied().find(is_it);
        found.ok_or(Refusal::MethodOrWidth)
    }
}

impl fmt::Display for Method {
    fn fmt(&self, f: &mut fmt::Formatter<'_>) -> fmt::Result {
        match self.width() {
            0 => f.write_str(self.name()),
            width => write!(f, "{} {}", self.name(), width),
        }
    }
}

impl FromStr for Method {
    type Err = ParseMethodError;

    fn from_str(text: &str) -> Result<Method, ParseMethodError> {
        read(text).ok_or(ParseMethodError(()))
    }
}

fn read(text: &str) -> Option<Method> {
    let is_apart = |c: char| c.is_ascii() && is_blank(c as u8);
    let mut words = text.split(is_apart).filter(|word| !word.is_empty());
    let first = words.next()?;
    let number = match Method::ALL
        .iter()
        .find(|method| method.name().eq_ignore_ascii_case(first))
    {
        Some(method) => method.number(),
        None => small(first)?,
    };
    let width = words.next().map_or(Some(0), small)?;
    match words.next() {
        None => Method::try_from((number, width)).ok(),
        Some(_) => None,
    }
}

/// The text names no method, or one with a width that it does not allow.
#[derive(Clone, Copy, Debug, PartialEq, Eq)]
pub struct ParseMethodError(());

impl fmt::Display for ParseMethodError {
    fn fmt(&self, f: &mut fmt::Formatter<'_>) -> fmt::Result {
        write!(
            f,
            "a method is binary, fixed and a width of 1 to {}, sliding and a width of 1 to {}, naf, wide-naf and \
             a width of {} to {}, or modified-naf; 1 to 6 may stand for the names",
            FIXED_WINDOW_BITS, SLIDING_WINDOW_BITS, LEAST_WIDTH, LARGEST_WIDTH
        )
    }
}
