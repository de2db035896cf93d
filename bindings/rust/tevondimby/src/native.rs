//! The functions of the library, as in `bindings/exports.txt`.
use std::ffi::c_void;

#[repr(C)]
pub struct Handle {
    pub is_open: u64,
    pub at: *mut c_void,
}

/// A token: its kind, and its range in bytes.
#[repr(C)]
#[derive(Clone, Copy, Debug, Default, PartialEq, Eq)]
pub struct Token {
    pub kind: Kind,
    pub start: u32,
    pub end: u32,
}

/// The kind of a token or a node. Its number is of this version.
#[repr(transparent)]
#[derive(Clone, Copy, Default, PartialEq, Eq, Hash, PartialOrd, Ord)]
pub struct Kind(pub u32);

/// A node or a token: its kind, the number of nodes around it, and its range in bytes.
#[repr(C)]
#[derive(Clone, Copy, Debug, Default, PartialEq, Eq)]
pub struct Element {
    pub kind: Kind,
    pub depth: u32,
    pub start: u32,
    pub end: u32,
}

#[repr(C)]
#[derive(Clone, Copy, Default)]
pub struct RawMessage {
    pub offset: u32,
    pub words_start: u32,
    pub words_end: u32,
}

#[repr(C)]
#[derive(Clone, Copy, Default)]
pub struct RawRange {
    pub start: u32,
    pub end: u32,
}

unsafe extern "C" {
    pub fn tevondimby_run(request: *const u8, request_len: usize, out: *mut u8, out_len: usize, written: &mut usize, status: &mut u8) -> u32;
    pub fn tevondimby_check(text: *const u8, text_len: usize, edition: u32, grammar: u32, count: &mut usize) -> u32;
    pub fn tevondimby_kind_name(kind: u32, out: *mut u8, out_len: usize, written: &mut usize) -> u32;
    pub fn tevondimby_open(handle: *mut Handle, text: *const u8, text_len: usize, edition: u32, grammar: u32) -> u32;
    pub fn tevondimby_free(handle: *mut Handle) -> u32;
    pub fn tevondimby_edit(handle: *mut Handle, start: usize, end: usize, text: *const u8, text_len: usize) -> u32;
    pub fn tevondimby_commit(handle: *mut Handle, command: *const u8, command_len: usize) -> u32;
    pub fn tevondimby_rename(handle: *mut Handle, old: *const u8, old_len: usize, new: *const u8, new_len: usize) -> u32;
    pub fn tevondimby_text(handle: *mut Handle, out: *mut u8, out_len: usize, written: &mut usize) -> u32;
    pub fn tevondimby_tokens(handle: *mut Handle, out: *mut Token, out_len: usize, written: &mut usize) -> u32;
    pub fn tevondimby_tree(handle: *mut Handle, out: *mut Element, out_len: usize, written: &mut usize) -> u32;
    pub fn tevondimby_errors(handle: *mut Handle, out: *mut RawMessage, out_len: usize, written: &mut usize, words: *mut u8, words_len: usize, words_written: &mut usize) -> u32;
    pub fn tevondimby_changed(handle: *mut Handle, out: *mut RawRange, out_len: usize, written: &mut usize) -> u32;
}
