//! The seven calls as a C caller sees them, and buffers that notice a write
//! beside them.

use crate::{for_c, plain};
use std::slice;

/// A desk: the archive's functions, or others with the same interface. Every
/// slice is a pointer to its first byte and its length.
#[derive(Clone, Copy)]
pub struct Desk {
    pub name: &'static str,
    pub check: unsafe extern "C" fn(*const u8, usize) -> u64,
    pub open: unsafe extern "C" fn(*const u8, usize, *mut u8, usize) -> u64,
    pub pin: unsafe extern "C" fn(*const u8, usize, *mut u8, usize, u64, u64) -> u64,
    pub solve: unsafe extern "C" fn(*const u8, usize, *mut u8, usize) -> u64,
    pub test: unsafe extern "C" fn(*const u8, usize, *const u8, usize) -> u64,
    pub margin: unsafe extern "C" fn(*const u8, usize, *const u8, usize, u64) -> u64,
    pub rule: unsafe extern "C" fn(*const u8, usize, u64, u64, u64) -> u64,
}

/// One of the calls with its numbers.
#[derive(Clone, Copy, Debug, PartialEq, Eq)]
pub enum Call {
    Check,
    Open,
    Pin { atom: u64, side: u64 },
    Solve,
    Test,
    Margin { rule: u64 },
    Rule { rule: u64, part: u64, index: u64 },
}

/// What a call answered and what the map's bytes were after it.
#[derive(Clone, Debug, PartialEq, Eq)]
pub struct After {
    pub code: u64,
    pub map: Vec<u8>,
}

/// A byte beside a buffer, or of the sheet, was changed.
#[derive(Clone, Copy, Debug, PartialEq, Eq)]
pub struct Trespass(pub &'static str);

impl Desk {
    /// The plain solver behind the archive's interface.
    pub const PLAIN: Desk = Desk {
        name: "plain",
        check: for_c!(check plain::desk_check),
        open: for_c!(open plain::desk_open),
        pin: for_c!(pin plain::desk_pin),
        solve: for_c!(solve plain::desk_solve),
        test: for_c!(test plain::desk_test),
        margin: for_c!(margin plain::desk_margin),
        rule: for_c!(rule plain::desk_rule),
    };

    /// The static archive.
    #[cfg(feature = "archive")]
    pub const ARCHIVE: Desk = Desk {
        name: "archive",
        check: archive::desk_check,
        open: archive::desk_open,
        pin: archive::desk_pin,
        solve: archive::desk_solve,
        test: archive::desk_test,
        margin: archive::desk_margin,
        rule: archive::desk_rule,
    };

    /// The desk under test: the archive where it is linked, else plain.
    pub const SUBJECT: Desk = {
        #[cfg(feature = "archive")]
        {
            Desk::ARCHIVE
        }
        #[cfg(not(feature = "archive"))]
        {
            Desk::PLAIN
        }
    };

    /// Makes a call on copies of the sheet and the map that stand between
    /// guard bytes.
    pub fn call(&self, call: Call, sheet: &[u8], map: &[u8]) -> Result<After, Trespass> {
        let sheet_guard = if sheet.len().is_multiple_of(2) { HIGH_GUARD } else { LOW_GUARD };
        let sheet_buffer = Guarded::new(sheet, sheet_guard);
        let mut map_buffer = Guarded::new(map, HIGH_GUARD);
        let code = self.call_on(call, &sheet_buffer, &mut map_buffer);
        if !sheet_buffer.is_intact() || sheet_buffer.content() != sheet {
            return Err(Trespass("the sheet or a byte beside it was changed"));
        }
        if !map_buffer.is_intact() {
            return Err(Trespass("a byte beside the map was changed"));
        }
        Ok(After { code, map: map_buffer.content().to_vec() })
    }

    fn call_on(&self, call: Call, sheet: &Guarded, map: &mut Guarded) -> u64 {
        // SAFETY: both pointers are to the first of so many bytes that live
        // and are not used otherwise until the call is over.
        unsafe { self.call_at(call, (sheet.first(), sheet.length), (map.first_mut(), map.length)) }
    }

    /// Makes a call on the lent bytes themselves and hands back its code.
    pub fn call_bare(&self, call: Call, sheet: &[u8], map: &mut [u8]) -> u64 {
        // SAFETY: both slices are lent to us for the call.
        unsafe { self.call_at(call, (sheet.as_ptr(), sheet.len()), (map.as_mut_ptr(), map.len())) }
    }

    /// # Safety
    /// Both pointers are to so many bytes that live and are not used
    /// otherwise until the call is over.
    unsafe fn call_at(&self, call: Call, (s, s_len): (*const u8, usize), (m, m_len): (*mut u8, usize)) -> u64 {
        unsafe {
            match call {
                Call::Check => (self.check)(s, s_len),
                Call::Open => (self.open)(s, s_len, m, m_len),
                Call::Pin { atom, side } => (self.pin)(s, s_len, m, m_len, atom, side),
                Call::Solve => (self.solve)(s, s_len, m, m_len),
                Call::Test => (self.test)(s, s_len, m, m_len),
                Call::Margin { rule } => (self.margin)(s, s_len, m, m_len, rule),
                Call::Rule { rule, part, index } => (self.rule)(s, s_len, rule, part, index),
            }
        }
    }
}

/// The guard bytes that stand on each side of a buffer.
type Guard = [u8; 64];

/// Bytes that no map holds, and that never end a number of a sheet.
const HIGH_GUARD: Guard = {
    let mut guard = [0xa0; 64];
    let mut index = 0;
    while index < guard.len() {
        guard[index] += index as u8;
        index += 1;
    }
    guard
};

/// Small numbers, with which a sheet that is read past its end goes on.
const LOW_GUARD: Guard = {
    let mut guard = [0; 64];
    guard[7] = 1;
    guard[11] = 2;
    guard
};

/// Bytes with guard bytes on both sides.
struct Guarded {
    bytes: Vec<u8>,
    length: usize,
    guard: Guard,
}

impl Guarded {
    fn new(content: &[u8], guard: Guard) -> Guarded {
        Guarded { bytes: [&guard, content, &guard].concat(), length: content.len(), guard }
    }

    fn first(&self) -> *const u8 {
        self.bytes[self.guard.len()..].as_ptr()
    }

    fn first_mut(&mut self) -> *mut u8 {
        // From the whole buffer, so that a write beside the content is a
        // change we can see and not one the compiler may assume away.
        let whole = self.bytes.as_mut_ptr();
        // SAFETY: the buffer begins with the guard.
        unsafe { whole.add(self.guard.len()) }
    }

    fn content(&self) -> &[u8] {
        &self.bytes[self.guard.len()..self.guard.len() + self.length]
    }

    fn is_intact(&self) -> bool {
        self.bytes.starts_with(&self.guard) && self.bytes[self.guard.len() + self.length..] == self.guard
    }
}

/// The lent bytes of a caller.
///
/// # Safety
/// `first` points to `length` bytes that live as long as the slice is used
/// and are not written meanwhile.
pub unsafe fn lent<'a>(first: *const u8, length: usize) -> &'a [u8] {
    unsafe { slice::from_raw_parts(first, length) }
}

/// The lent bytes of a caller, to be written.
///
/// # Safety
/// As for [`lent`], and nothing else uses the bytes meanwhile.
pub unsafe fn lent_mut<'a>(first: *mut u8, length: usize) -> &'a mut [u8] {
    unsafe { slice::from_raw_parts_mut(first, length) }
}

/// A call on slices as a C caller sees it: `for_c!(open f)` hands `f` the
/// slices of the pointers and lengths that it is given.
#[macro_export]
macro_rules! for_c {
    (check $call:path) => {
        $crate::for_c!([] $call [])
    };
    (open $call:path) => {
        $crate::for_c!([map: *mut u8 as lent_mut] $call [])
    };
    (solve $call:path) => {
        $crate::for_c!(open $call)
    };
    (pin $call:path) => {
        $crate::for_c!([map: *mut u8 as lent_mut] $call [atom side])
    };
    (test $call:path) => {
        $crate::for_c!([map: *const u8 as lent] $call [])
    };
    (margin $call:path) => {
        $crate::for_c!([map: *const u8 as lent] $call [rule])
    };
    (rule $call:path) => {
        $crate::for_c!([] $call [rule part index])
    };
    ([$($map:ident: $pointer:ty as $lent:ident)?] $call:path [$($number:ident)*]) => {{
        unsafe extern "C" fn call(s: *const u8, s_len: usize, $($map: $pointer, map_len: usize,)? $($number: u64),*) -> u64 {
            // SAFETY: the caller lends so many bytes at each pointer.
            unsafe { $call($crate::desk::lent(s, s_len), $($crate::desk::$lent($map, map_len),)? $($number),*) }
        }
        call
    }};
}

/// The functions of `libarchive.a`.
#[cfg(feature = "archive")]
mod archive {
    unsafe extern "C" {
        pub fn desk_check(s: *const u8, s_len: usize) -> u64;
        pub fn desk_open(s: *const u8, s_len: usize, map: *mut u8, map_len: usize) -> u64;
        pub fn desk_pin(s: *const u8, s_len: usize, map: *mut u8, map_len: usize, atom: u64, side: u64) -> u64;
        pub fn desk_solve(s: *const u8, s_len: usize, map: *mut u8, map_len: usize) -> u64;
        pub fn desk_test(s: *const u8, s_len: usize, map: *const u8, map_len: usize) -> u64;
        pub fn desk_margin(s: *const u8, s_len: usize, map: *const u8, map_len: usize, rule: u64) -> u64;
        pub fn desk_rule(s: *const u8, s_len: usize, rule: u64, part: u64, index: u64) -> u64;
    }
}
