//! A thin safe wrapper around libtablet.a. Each function hands a slice's pointer and length on and turns the answer into a
//! `Result`; it has no logic of its own. The C functions are proved to be safe, to end, and to answer as document 01 says, on
//! any numbers and any memory that the pointer and length describe.

/// Bytes of a rule, and the most rules of a list.
pub const RULE_BYTES: usize = 21;
pub const RULES_MOST: usize = 256;
/// Bytes of a header.
pub const HEADER_BYTES: usize = 13;
/// Bytes of a table record, and the most words of a table.
pub const RECORD_BYTES: usize = 28;
pub const WORDS_MOST: usize = 2048;
/// The most bytes of a rule sheet.
pub const SHEET_BYTES_MOST: usize = 65_536;
/// Numbers of a list that is large enough for every interval.
pub const LIST_NUMBERS: usize = 60;

/// Why a call was refused: document 01's number, and the values returned with it (0 where there are none).
#[derive(Clone, Copy, Debug, PartialEq, Eq)]
pub struct Refusal {
    pub no: u32,
    pub a: u32,
    pub b: u32,
}

impl std::fmt::Display for Refusal {
    fn fmt(&self, f: &mut std::fmt::Formatter<'_>) -> std::fmt::Result {
        write!(f, "refused with {}: {}, {}", self.no, self.a, self.b)
    }
}

impl std::error::Error for Refusal {}

/// What checking somebody else's list finds.
#[derive(Clone, Copy, Debug, PartialEq, Eq)]
pub enum Checked {
    Yes,
    /// The smallest value on which the words and the interval disagree.
    Differs(u32),
}

/// The rule that a header finds, from 0, and its action.
#[derive(Clone, Copy, Debug, PartialEq, Eq)]
pub struct Rule {
    pub number: u32,
    pub action: u32,
}

/// The table record that a header finds, from 0, with its rule's number and action.
#[derive(Clone, Copy, Debug, PartialEq, Eq)]
pub struct Record {
    pub index: u32,
    pub rule: u32,
    pub action: u32,
}

fn done(r: raw::Answer) -> Result<raw::Answer, Refusal> {
    if r.no == 0 {
        Ok(r)
    } else {
        Err(Refusal { no: r.no, a: r.a, b: r.b })
    }
}

/// The closed interval, low and high, of the open bounds (a, b).
pub fn close(width: u32, a: i32, b: i32) -> Result<(u32, u32), Refusal> {
    done(raw::close(width, a, b)).map(|r| (r.a, r.b))
}

/// How many prefix words low..=high has.
pub fn count(width: u32, low: u32, high: u32) -> Result<u32, Refusal> {
    done(raw::count(width, low, high)).map(|r| r.a)
}

/// Writes the prefix words of low..=high, value then mask, and answers how many they are.
pub fn list(width: u32, low: u32, high: u32, out: &mut [u16]) -> Result<u32, Refusal> {
    done(raw::list(width, low, high, out)).map(|r| r.a)
}

/// The first `words` words of `list` against low..=high.
pub fn check(width: u32, low: u32, high: u32, list: &[u16], words: usize) -> Result<Checked, Refusal> {
    done(raw::check(width, low, high, list, words)).map(|r| if r.a == 1 { Checked::Yes } else { Checked::Differs(r.b) })
}

/// Compiles a rule list into a table, and answers how many words were written.
pub fn compile(rules: &[u8], table: &mut [u8]) -> Result<u32, Refusal> {
    done(raw::compile(rules, table)).map(|r| r.a)
}

/// The first rule that matches the header.
pub fn find_rule(rules: &[u8], header: &[u8]) -> Result<Option<Rule>, Refusal> {
    done(raw::find_rule(rules, header)).map(|r| (r.a == 1).then_some(Rule { number: r.b, action: r.c }))
}

/// The first of the table's `words` records that matches the header.
pub fn find_word(table: &[u8], words: usize, header: &[u8]) -> Result<Option<Record>, Refusal> {
    done(raw::find_word(table, words, header)).map(|r| (r.a == 1).then_some(Record { index: r.b, rule: r.c, action: r.d }))
}

/// Reads a rule sheet's text into 21-byte records, and answers how many rules were written.
pub fn read_sheet(text: &[u8], rules: &mut [u8]) -> Result<u32, Refusal> {
    done(raw::read_sheet(text, rules)).map(|r| r.a)
}

/// The prefix words of an interval, one by one.
#[derive(Clone, Copy, Debug)]
pub struct Words {
    walk: raw::Walk,
}

/// Starts a walk over low..=high. What is wrong with it is answered by the first step.
pub fn words(width: u32, low: u32, high: u32) -> Words {
    Words { walk: raw::Walk { width, next: low, last: high, ended: 0 } }
}

impl Iterator for Words {
    type Item = Result<(u32, u32), Refusal>;

    fn next(&mut self) -> Option<Self::Item> {
        let step = raw::step(self.walk);
        self.walk = step.walk;
        if step.no != 0 {
            self.walk.ended = 1;
            return Some(Err(Refusal { no: step.no, a: 0, b: 0 }));
        }
        (step.given == 1).then_some(Ok((step.value, step.mask)))
    }
}

/// The C functions as they are, with slices for pointer and length; `include/ashkavorz.h` says what each answers.
///
/// Safety, of every call below: the library is proved to read and write within the pointer and length that it is handed, and to
/// keep neither. A slice is aligned, holds initialised numbers, and a `&mut` one overlaps no other, which is all that it asks.
pub mod raw {
    #[repr(C)]
    #[derive(Clone, Copy, Debug, Default, PartialEq, Eq)]
    pub struct Answer {
        pub no: u32,
        pub a: u32,
        pub b: u32,
        pub c: u32,
        pub d: u32,
    }

    #[repr(C)]
    #[derive(Clone, Copy, Debug, Default, PartialEq, Eq)]
    pub struct Walk {
        pub width: u32,
        pub next: u32,
        pub last: u32,
        pub ended: u32,
    }

    #[repr(C)]
    #[derive(Clone, Copy, Debug, Default, PartialEq, Eq)]
    pub struct Step {
        pub no: u32,
        pub given: u32,
        pub value: u32,
        pub mask: u32,
        pub walk: Walk,
    }

    mod c {
        use super::{Answer, Step, Walk};
        extern "C" {
            pub fn ashkavorz_close(width: u32, a: i32, b: i32) -> Answer;
            pub fn ashkavorz_count(width: u32, low: u32, high: u32) -> Answer;
            pub fn ashkavorz_list(width: u32, low: u32, high: u32, out: *mut u16, len: usize) -> Answer;
            pub fn ashkavorz_step(walk: Walk) -> Step;
            pub fn ashkavorz_check(width: u32, low: u32, high: u32, list: *const u16, len: usize, k: usize) -> Answer;
            pub fn ashkavorz_compile(rules: *const u8, rules_len: usize, table: *mut u8, table_len: usize) -> Answer;
            pub fn ashkavorz_find_rule(rules: *const u8, rules_len: usize, header: *const u8, header_len: usize) -> Answer;
            pub fn ashkavorz_find_word(table: *const u8, table_len: usize, k: usize, header: *const u8, header_len: usize) -> Answer;
            pub fn ashkavorz_read_sheet(text: *const u8, text_len: usize, rules: *mut u8, rules_len: usize) -> Answer;
        }
    }

    pub fn close(width: u32, a: i32, b: i32) -> Answer {
        unsafe { c::ashkavorz_close(width, a, b) }
    }

    pub fn count(width: u32, low: u32, high: u32) -> Answer {
        unsafe { c::ashkavorz_count(width, low, high) }
    }

    pub fn list(width: u32, low: u32, high: u32, out: &mut [u16]) -> Answer {
        unsafe { c::ashkavorz_list(width, low, high, out.as_mut_ptr(), out.len()) }
    }

    pub fn step(walk: Walk) -> Step {
        unsafe { c::ashkavorz_step(walk) }
    }

    pub fn check(width: u32, low: u32, high: u32, list: &[u16], k: usize) -> Answer {
        unsafe { c::ashkavorz_check(width, low, high, list.as_ptr(), list.len(), k) }
    }

    pub fn compile(rules: &[u8], table: &mut [u8]) -> Answer {
        unsafe { c::ashkavorz_compile(rules.as_ptr(), rules.len(), table.as_mut_ptr(), table.len()) }
    }

    pub fn find_rule(rules: &[u8], header: &[u8]) -> Answer {
        unsafe { c::ashkavorz_find_rule(rules.as_ptr(), rules.len(), header.as_ptr(), header.len()) }
    }

    pub fn find_word(table: &[u8], k: usize, header: &[u8]) -> Answer {
        unsafe { c::ashkavorz_find_word(table.as_ptr(), table.len(), k, header.as_ptr(), header.len()) }
    }

    pub fn read_sheet(text: &[u8], rules: &mut [u8]) -> Answer {
        unsafe { c::ashkavorz_read_sheet(text.as_ptr(), text.len(), rules.as_mut_ptr(), rules.len()) }
    }
}
