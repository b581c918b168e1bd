//! The functions of include/tree_editor.h. Each lent array is a pointer and its number of elements, which is a `u64` on every machine.
use crate::{Mended, Record};

/// A macro that declares the functions: after the record come the five arrays, then what is the call's own.
macro_rules! calls {
    ($($name:ident ($ed:ty; $cell:ident, $order:ident; $($arg:ident: $ty:ty),*) -> $ret:ty;)*) => {
        unsafe extern "C" {
            $(pub fn $name(ed: $ed, plens: calls!(@$cell u64), plens_len: u64, paths: calls!(@$cell u8), paths_len: u64,
                tlens: calls!(@$cell u64), tlens_len: u64, trees: calls!(@$cell u8), trees_len: u64,
                order: calls!(@$order u64), order_len: u64, $($arg: $ty),*) -> $ret;)*
        }
    };
    (@edit $t:ty) => { *mut $t };
    (@read $t:ty) => { *const $t };
}

type Bytes = *const u8;
type Words = *const u32;

calls! {
    tree_editor_new(*mut Record; edit, read; raw: Bytes, raw_len: u64) -> u8;
    tree_editor_set_root(*mut Record; edit, read; raw: Bytes, raw_len: u64) -> u8;
    tree_editor_upsert(*mut Record; edit, read; ids: Bytes, ids_len: u64, ends: Words, ends_len: u64, raws: Bytes, raws_len: u64,
        prefix: Bytes, prefix_len: u64, path: Bytes, path_len: u64, id: Bytes, id_len: u64, mode: u32) -> u8;
    tree_editor_remove(*mut Record; edit, read; ids: Bytes, ids_len: u64, ends: Words, ends_len: u64, raws: Bytes, raws_len: u64,
        prefix: Bytes, prefix_len: u64, path: Bytes, path_len: u64) -> u8;
    tree_editor_remove_leaf(*mut Record; edit, read; ids: Bytes, ids_len: u64, ends: Words, ends_len: u64, raws: Bytes, raws_len: u64,
        prefix: Bytes, prefix_len: u64, path: Bytes, path_len: u64) -> u8;
    tree_editor_cursor_at(*mut Record; edit, read; ids: Bytes, ids_len: u64, ends: Words, ends_len: u64, raws: Bytes, raws_len: u64,
        path: Bytes, path_len: u64) -> u8;
    tree_editor_get(Record; read, read; prefix: Bytes, prefix_len: u64, path: Bytes, path_len: u64, id: *mut u8, id_len: u64) -> u32;
    tree_editor_begin(*mut Record; edit, edit;) -> u8;
    tree_editor_begin_at(*mut Record; edit, edit; prefix: Bytes, prefix_len: u64) -> u8;
    tree_editor_request(Record; read, read; out: *mut u8, out_len: u64, path: *mut u8, path_len: u64, lens: *mut u64, lens_len: u64) -> u8;
    tree_editor_answer(*mut Record; edit, edit; id: Bytes, id_len: u64) -> u8;
    tree_editor_answer_and_request(*mut Record; edit, edit; id: Bytes, id_len: u64, out: *mut u8, out_len: u64, path: *mut u8,
        path_len: u64, lens: *mut u64, lens_len: u64, next: *mut u8, next_len: u64) -> u8;
    tree_editor_fail(*mut Record; edit, read;) -> u8;
    tree_editor_holds(Record; read, read;) -> u8;
}

unsafe extern "C" {
    pub fn tree_editor_mend(raw: Bytes, raw_len: u64, width: u64, out: *mut u8, out_len: u64) -> Mended;
}
