//! The original's editor.rs and find.rs (UNCHANGED, pulled in by path) over stand-ins.
//!
//! Original's own code: everything inside `tree::editor` but its last child module `access`, and `find`
//! (the error enums). `Tree` and `Kind` and `decode::Error` repeat the declarations of the original's lib.rs.
//! Everything else is a stand-in: the struct `Editor` (fields as editor.rs uses them), `Entry`, `EntryKind`,
//! `EntryMode`, `name_order`, `Ord` of entries, decoding, encoding, `FindExt`.
#![allow(unfulfilled_lint_expectations)]

#[path = "../../../../docs/src/src/find.rs"]
pub mod find;
pub mod tree;

#[derive(PartialEq, Eq, Debug, Hash, Ord, PartialOrd, Clone, Copy)]
pub enum Kind {
    Tree,
    Blob,
    Commit,
    Tag,
}

pub mod decode {
    #[derive(Debug, Clone, Copy, Default)]
    pub struct Error;
    impl std::fmt::Display for Error {
        fn fmt(&self, f: &mut std::fmt::Formatter<'_>) -> std::fmt::Result {
            f.write_str("object parsing failed")
        }
    }
    impl std::error::Error for Error {}
}

/// Stand-in for `Tree`; `at` is a shadow label set by the driver before a write so that a request's path can be
/// named (the original hands `out` the tree only). The original never reads or builds it but by `default()`.
#[derive(Default, Debug, Clone)]
pub struct Tree {
    pub entries: Vec<tree::Entry>,
    pub at: bstr::BString,
}

/// Stand-in for the borrowed tree that `find_tree` gives.
pub struct TreeRef<'a> {
    pub entries: Vec<tree::EntryRef<'a>>,
}
impl From<TreeRef<'_>> for Tree {
    fn from(t: TreeRef<'_>) -> Tree {
        Tree {
            entries: t
                .entries
                .into_iter()
                .map(|e| tree::Entry {
                    mode: e.mode,
                    filename: e.filename.to_vec().into(),
                    oid: e.oid,
                })
                .collect(),
            at: Default::default(),
        }
    }
}

pub trait FindExt {
    fn find_tree<'a>(
        &self,
        id: &gix_hash::oid,
        buffer: &'a mut Vec<u8>,
    ) -> Result<TreeRef<'a>, find::existing_object::Error>;
}

// ---- below: only so that find.rs compiles; never run ----
pub mod write {
    pub type Error = Box<dyn std::error::Error + Send + Sync + 'static>;
}
pub struct Header {
    pub kind: Kind,
    pub size: u64,
}
pub struct Data<'a> {
    pub kind: Kind,
    pub data: &'a [u8],
}
pub trait FindHeader {
    fn try_header(&self, id: &gix_hash::oid) -> Result<Option<Header>, find::Error>;
}
pub trait Find {
    fn try_find<'a>(&self, id: &gix_hash::oid, buffer: &'a mut Vec<u8>) -> Result<Option<Data<'a>>, find::Error>;
}
pub trait Exists {
    fn exists(&self, id: &gix_hash::oid) -> bool;
}
pub trait Write {
    fn write_buf(&self, object: Kind, from: &[u8]) -> Result<gix_hash::ObjectId, write::Error>;
    fn write_buf_with_known_id(
        &self,
        object: Kind,
        from: &[u8],
        id: gix_hash::ObjectId,
    ) -> Result<gix_hash::ObjectId, write::Error>;
    fn write_stream(
        &self,
        kind: Kind,
        size: u64,
        from: &mut dyn std::io::Read,
    ) -> Result<gix_hash::ObjectId, write::Error>;
    fn write_stream_with_known_id(
        &self,
        kind: Kind,
        size: u64,
        from: &mut dyn std::io::Read,
        id: gix_hash::ObjectId,
    ) -> Result<gix_hash::ObjectId, write::Error>;
}
pub fn compute_hash(
    _: gix_hash::Kind,
    _: Kind,
    _: &[u8],
) -> Result<gix_hash::ObjectId, gix_hash::hasher::Error> {
    unimplemented!()
}
pub fn compute_stream_hash(
    _: gix_hash::Kind,
    _: Kind,
    _: &mut dyn std::io::Read,
    _: u64,
    _: &mut dyn gix_features::progress::Progress,
    _: &std::sync::atomic::AtomicBool,
) -> Result<gix_hash::ObjectId, gix_hash::io::Error> {
    unimplemented!()
}
