//! The calls of the proved library, behind safe functions (`include/simp.h`).
//!
//! A slice passes as a pointer, then a length.

/// How a run ended, as the library hands it back.
#[repr(C)]
#[derive(Clone, Copy, Debug, PartialEq, Eq)]
pub struct Outcome {
    pub answer: u8,
    pub steps: u32,
}

/// The most scripts of a round.
pub const SCRIPTS: usize = 32;

/// How a round ended, as the library hands it back: each script's answer and steps in its place.
#[repr(C)]
#[derive(Clone, Copy, Debug, PartialEq, Eq)]
pub struct Round {
    pub answer: u8,
    pub answers: [u8; SCRIPTS],
    pub steps: [u32; SCRIPTS],
}

/// The answer of a call for groups, as the library hands it back, and how many were listed.
#[repr(C)]
#[derive(Clone, Copy, Debug, PartialEq, Eq)]
pub struct Groups {
    pub answer: u8,
    pub count: u32,
}

/// The answer of a call for trust, as the library hands it back: whether the script is accepted, and
/// whether it is trust-keeping.
#[repr(C)]
#[derive(Clone, Copy, Debug, PartialEq, Eq)]
pub struct Trust {
    pub answer: u8,
    pub keeping: u8,
}

/// The sum of the logic in which the library is proved.
pub const LOGIC: &str = env!("SIMP_LOGIC");

/// The SHA-256 of the library's archive.
pub const ARCHIVE: &str = env!("SIMP_ARCHIVE");

mod c {
    use super::{Groups, Outcome, Round, Trust};

    extern "C" {
        pub fn simp_check(
            sheet: *const u8,
            sheet_len: usize,
            script: *const u8,
            script_len: usize,
        ) -> u8;

        pub fn simp_run(
            sheet: *const u8,
            sheet_len: usize,
            script: *const u8,
            script_len: usize,
            memory: *mut u32,
            memory_len: usize,
            authority: u16,
            budget: u32,
        ) -> Outcome;

        pub fn simp_round(
            sheet: *const u8,
            sheet_len: usize,
            scripts: *const u8,
            scripts_len: usize,
            memory: *mut u32,
            memory_len: usize,
            authority: u16,
            budget: u32,
        ) -> Round;

        pub fn simp_view(
            sheet: *const u8,
            sheet_len: usize,
            memory: *const u32,
            memory_len: usize,
            group: u16,
            view: *mut u32,
            view_len: usize,
        ) -> u8;

        pub fn simp_groups(
            sheet: *const u8,
            sheet_len: usize,
            label: u32,
            groups: *mut u16,
            groups_len: usize,
        ) -> Groups;

        pub fn simp_trust(
            sheet: *const u8,
            sheet_len: usize,
            script: *const u8,
            script_len: usize,
        ) -> Trust;
    }
}

pub fn check(sheet: &[u8], script: &[u8]) -> u8 {
    // SAFETY: each pointer and length come from one slice, lent for the call.
    unsafe { c::simp_check(sheet.as_ptr(), sheet.len(), script.as_ptr(), script.len()) }
}

pub fn run(
    sheet: &[u8],
    script: &[u8],
    memory: &mut [u32],
    authority: u16,
    budget: u32,
) -> Outcome {
    // SAFETY: as above, and `memory` is lent for writing.
    unsafe {
        c::simp_run(
            sheet.as_ptr(),
            sheet.len(),
            script.as_ptr(),
            script.len(),
            memory.as_mut_ptr(),
            memory.len(),
            authority,
            budget,
        )
    }
}

pub fn round(
    sheet: &[u8],
    scripts: &[u8],
    memory: &mut [u32],
    authority: u16,
    budget: u32,
) -> Round {
    // SAFETY: as above, and `memory` is lent for writing.
    unsafe {
        c::simp_round(
            sheet.as_ptr(),
            sheet.len(),
            scripts.as_ptr(),
            scripts.len(),
            memory.as_mut_ptr(),
            memory.len(),
            authority,
            budget,
        )
    }
}

pub fn view(sheet: &[u8], memory: &[u32], group: u16, view: &mut [u32]) -> u8 {
    // SAFETY: as above, and `view` is lent for writing and apart from `memory`.
    unsafe {
        c::simp_view(
            sheet.as_ptr(),
            sheet.len(),
            memory.as_ptr(),
            memory.len(),
            group,
            view.as_mut_ptr(),
            view.len(),
        )
    }
}

pub fn groups(sheet: &[u8], label: u32, groups: &mut [u16]) -> Groups {
    // SAFETY: as above, and `groups` is lent for writing.
    unsafe { c::simp_groups(sheet.as_ptr(), sheet.len(), label, groups.as_mut_ptr(), groups.len()) }
}

pub fn trust(sheet: &[u8], script: &[u8]) -> Trust {
    // SAFETY: each pointer and length come from one slice, lent for the call.
    unsafe { c::simp_trust(sheet.as_ptr(), sheet.len(), script.as_ptr(), script.len()) }
}
