//! STAND-IN for src/tree/mod.rs, but for `editor`, which is the original file.
use bstr::{BStr, BString};
use gix_hash::ObjectId;
use std::cell::RefCell;
use std::cmp::Ordering;
use std::collections::HashMap;

use crate::Tree;

/// The original's text, unchanged, by `include!`. `access` is ours: it needs the cursor's private fields, since
/// the port's cursors are prefixes by value while the original's hold `&mut Editor`.
pub mod editor {
    include!("../../../../../docs/src/src/tree/editor.rs");

    /// OURS, not the original's.
    pub mod access {
        use super::{Cursor, Editor};
        /// A cursor at a prefix where a tree is cached, without the edit that `cursor_at` makes.
        pub fn cursor<'a, 'find>(parent: &'a mut Editor<'find>, prefix: bstr::BString) -> Cursor<'a, 'find> {
            Cursor { parent, prefix }
        }
        /// The prefix of a cursor that `cursor_at` gave.
        pub fn prefix<'a>(c: &'a Cursor<'_, '_>) -> &'a bstr::BString {
            &c.prefix
        }
    }
}

pub struct Editor<'a> {
    pub find: &'a dyn crate::FindExt,
    pub object_hash: gix_hash::Kind,
    pub trees: HashMap<BString, Tree>,
    pub path_buf: RefCell<BString>,
    pub tree_buf: Vec<u8>,
}

#[derive(Clone, Copy, PartialEq, Eq, Debug)]
pub enum EntryKind {
    Tree,
    Blob,
    BlobExecutable,
    Link,
    Commit,
}
#[derive(Clone, Copy, PartialEq, Eq, Debug)]
pub struct EntryMode(pub u32);

impl From<EntryKind> for EntryMode {
    fn from(k: EntryKind) -> Self {
        EntryMode(match k {
            EntryKind::Tree => 0o040000,
            EntryKind::Blob => 0o100644,
            EntryKind::BlobExecutable => 0o100755,
            EntryKind::Link => 0o120000,
            EntryKind::Commit => 0o160000,
        })
    }
}
impl EntryMode {
    pub fn is_tree(&self) -> bool {
        self.0 == 0o040000
    }
}
pub const KINDS: [EntryKind; 5] = [
    EntryKind::Tree,
    EntryKind::Blob,
    EntryKind::BlobExecutable,
    EntryKind::Link,
    EntryKind::Commit,
];
pub fn kind_of(mode: u32) -> Option<EntryKind> {
    KINDS.into_iter().find(|k| EntryMode::from(*k).0 == mode)
}

#[derive(Clone, PartialEq, Eq, Debug)]
pub struct Entry {
    pub mode: EntryMode,
    pub filename: BString,
    pub oid: ObjectId,
}
pub struct EntryRef<'a> {
    pub mode: EntryMode,
    pub filename: &'a BStr,
    pub oid: ObjectId,
}

/// Git's rule: unsigned bytes, a tree compared as if a slash followed its name.
pub fn name_order(a: &[u8], a_is_tree: bool, b: &[u8], b_is_tree: bool) -> Ordering {
    let common = a.len().min(b.len());
    a[..common].cmp(&b[..common]).then_with(|| {
        let x = a.get(common).or_else(|| a_is_tree.then_some(&b'/'));
        let y = b.get(common).or_else(|| b_is_tree.then_some(&b'/'));
        x.cmp(&y)
    })
}
impl Ord for Entry {
    fn cmp(&self, o: &Self) -> Ordering {
        name_order(&self.filename, self.mode.is_tree(), &o.filename, o.mode.is_tree())
    }
}
impl PartialOrd for Entry {
    fn partial_cmp(&self, o: &Self) -> Option<Ordering> {
        Some(self.cmp(o))
    }
}

/// Raw form: octal mode without leading zero, space, name, NUL, id.
pub fn encode(t: &Tree) -> Vec<u8> {
    let mut out = Vec::new();
    for e in &t.entries {
        out.extend_from_slice(match e.mode.0 {
            0o040000 => b"40000 ",
            0o100644 => b"100644 ",
            0o100755 => b"100755 ",
            0o120000 => b"120000 ",
            0o160000 => b"160000 ",
            _ => unreachable!("five modes"),
        });
        out.extend_from_slice(&e.filename);
        out.push(0);
        out.extend_from_slice(e.oid.as_bytes());
    }
    out
}

/// How much of the rules' demand on a tree (docs/RULES.md) is checked on reading.
#[derive(Clone, Copy, PartialEq, Eq, Debug)]
pub enum Strict {
    /// Raw form and well-formedness as the rules define them.
    Rules,
    /// Raw form and the five modes only: order, doubles and names are not looked at (nearer to the original crate).
    FormOnly,
}

/// Read a raw tree. `None`: damaged.
pub fn decode(raw: &[u8], strict: Strict) -> Option<Vec<EntryRef<'_>>> {
    let mut out: Vec<EntryRef<'_>> = Vec::new();
    let mut rest = raw;
    while !rest.is_empty() {
        let sp = rest.iter().position(|b| *b == b' ')?;
        let mode = match &rest[..sp] {
            b"40000" => 0o040000,
            b"100644" => 0o100644,
            b"100755" => 0o100755,
            b"120000" => 0o120000,
            b"160000" => 0o160000,
            _ => return None,
        };
        rest = &rest[sp + 1..];
        let nul = rest.iter().position(|b| *b == 0)?;
        let name = &rest[..nul];
        rest = &rest[nul + 1..];
        if rest.len() < 20 {
            return None;
        }
        let mut id = [0; 20];
        id.copy_from_slice(&rest[..20]);
        rest = &rest[20..];
        out.push(EntryRef {
            mode: EntryMode(mode),
            filename: BStr::new(name),
            oid: ObjectId::from_bytes(id),
        });
    }
    if strict == Strict::Rules {
        for e in &out {
            if e.filename.is_empty() || e.filename.len() > 255 || e.filename.contains(&b'/') {
                return None;
            }
        }
        for w in out.windows(2) {
            if name_order(w[0].filename, w[0].mode.is_tree(), w[1].filename, w[1].mode.is_tree()) != Ordering::Less {
                return None;
            }
        }
        let mut seen = std::collections::HashSet::new();
        if !out.iter().all(|e| seen.insert(e.filename)) {
            return None;
        }
    }
    Some(out)
}
