//! A Git tree editor in lent memory, without heap: the library of include/tree_editor.h under the names of gix-object's editor.
//!
//! The editor's trees lie in a [`Store`] of 48,640 bytes, which is lent (`&mut Store`) or owned (`Box<Store>`); the record beside it has
//! 80 bytes. Nothing here allocates, and the crate needs no standard library.
//!
//! What differs from the Rust: trees are given and handed out in raw form; the object table is lent; every limit has a number ([`Error`]);
//! `get` says why it refused; `write` is lent the memory for its output.
//!
//! # What surprises a caller
//!
//! - [`Editor::new`] starts over: it asks nothing of the store, and forgets an editor that lies there.
//! - [`Error::StoreDamaged`] does not only mean damage: in C it is also the answer where an array is too short and where no editor has been
//!   made yet. Neither can happen here: a [`Store`] has its length, and an [`Editor`] has been made.
//! - A path of no bytes names nothing: an edit with it does nothing, a lookup finds nothing, and a cursor opened there stands at the root.
//! - A slash at the end is an empty component: an upsert of `a/` gives [`Error::EmptyComponent`], and the tree `a` that it made or loaded on its
//!   way stays.
//! - Opening a cursor is an edit. Where no tree is cached at its path, the folder starts empty there and its id is forgotten, even if the
//!   table lists it: the write then leaves out what the folder held. To keep that, make an edit below the folder first, which loads it.
//! - A lookup sees cached trees only, and gives a folder's old id, whatever was changed below it ([`NULL`] for a new one), until the write
//!   answers for the folder.
//! - Entries with the id [`NULL`] vanish when their tree is written, and so do trees that have no entry left; only the tree that the write
//!   starts from is requested even when it is empty.
//! - A removed folder's tree stays cached: a later upsert below its path brings back what it held.
//! - After [`Editor::write`] only the root is cached. The next edit below a folder looks up the id that was answered for it, so the trees
//!   that were just written have to be in the table ([`Editor::set_table`]), or it gives [`Error::TreeNotFound`]. After [`Cursor::write`] the
//!   cursor's tree stays cached, and so does what the write did not visit.
#![no_std]
#![warn(missing_docs)]

use core::borrow::BorrowMut;

mod sys;

/// Words of the three tables of a store, and the most trees that can be cached.
pub const SLOTS: usize = 64;
/// Bytes for paths in a store.
pub const PATHS: usize = 8192;
/// Bytes for trees in a store.
pub const TREES: usize = 38912;
/// Bytes in a path with its cursor's prefix.
pub const PATH: usize = 1024;
/// Bytes of output that every request fits in.
pub const OUTPUT: usize = 45056;

/// The id of an object.
pub type Id = [u8; 20];
/// The id of no object.
pub const NULL: Id = [0; 20];

/// The record of an editor. Its fields are the editor's own.
#[repr(C)]
#[derive(Clone, Copy, Default, Debug, PartialEq, Eq)]
struct Record {
    free: u64,
    hidden: u64,
    paths: u64,
    trees: u64,
    entries: u64,
    names: u64,
    open: u64,
    aside: u64,
    stacked: u64,
    asked: u64,
}

/// The memory that an editor's trees lie in. What it holds before an editor is made does not matter.
#[repr(C)]
#[derive(Clone)]
pub struct Store {
    plens: [u64; SLOTS],
    tlens: [u64; SLOTS],
    order: [u64; SLOTS],
    paths: [u8; PATHS],
    trees: [u8; TREES],
}

impl Store {
    /// A store of zeros.
    pub const fn new() -> Store {
        Store { plens: [0; SLOTS], tlens: [0; SLOTS], order: [0; SLOTS], paths: [0; PATHS], trees: [0; TREES] }
    }
}
impl Default for Store {
    fn default() -> Store {
        Store::new()
    }
}

/// The memory that requests are read into.
pub struct Output {
    raw: [u8; OUTPUT],
    path: [u8; PATH],
}

impl Output {
    /// An output of zeros.
    pub const fn new() -> Output {
        Output { raw: [0; OUTPUT], path: [0; PATH] }
    }
}
impl Default for Output {
    fn default() -> Output {
        Output::new()
    }
}

/// The trees that an edit may load: ids end to end, the offset in `raws` at which each object ends, raw trees end to end.
/// The first equal id counts.
#[derive(Clone, Copy, Default, Debug)]
pub struct Table<'t> {
    /// The ids, 20 bytes each.
    pub ids: &'t [u8],
    /// The end of each object in `raws`.
    pub ends: &'t [u32],
    /// The raw trees.
    pub raws: &'t [u8],
}

/// What an entry is.
#[derive(Clone, Copy, Debug, PartialEq, Eq)]
#[repr(u32)]
pub enum EntryKind {
    /// A tree, a folder.
    Tree = 0o040000,
    /// A file.
    Blob = 0o100644,
    /// An executable file.
    BlobExecutable = 0o100755,
    /// A symbolic link.
    Link = 0o120000,
    /// A commit, a submodule.
    Commit = 0o160000,
}

impl EntryKind {
    fn of(mode: u32) -> Option<EntryKind> {
        use EntryKind::*;
        [Tree, Blob, BlobExecutable, Link, Commit].into_iter().find(|k| *k as u32 == mode)
    }
}

/// What a lookup finds.
#[derive(Clone, Copy, Debug, PartialEq, Eq)]
pub struct Entry {
    /// The entry's kind.
    pub kind: EntryKind,
    /// The entry's id.
    pub id: Id,
}

/// A tree that a write asks the id of.
#[derive(Clone, Copy, Debug, PartialEq, Eq)]
pub struct Request<'o> {
    /// The path that the tree belongs at.
    pub path: &'o [u8],
    /// The tree in raw form.
    pub raw: &'o [u8],
}

/// What an answer leads to, where it is taken.
#[derive(Clone, Copy, Debug, PartialEq, Eq)]
#[must_use]
pub enum Answered<'o> {
    /// The write is over.
    Over,
    /// The next request.
    Next(Request<'o>),
    /// The next request's raw tree has more bytes than the output that was lent. The answer is made: [`request`](Editor::request) reads the
    /// next request; to answer again would answer that one.
    Needs(usize),
}

/// Why a call did not do what it was asked. From `NoRoom` on, nothing has changed.
#[derive(Clone, Copy, Debug, PartialEq, Eq)]
pub enum Error {
    /// 1: the walk reached an empty component; its earlier steps stay.
    EmptyComponent,
    /// 2: an id that was looked up isn't in the table; earlier steps stay.
    TreeNotFound,
    /// 3: the tree that was found isn't well formed; earlier steps stay.
    TreeDamaged,
    /// 4: a leaf removal ended at a tree; loaded trees stay.
    NotALeaf,
    /// 5: a limit would be passed.
    NoRoom,
    /// 6: the path has a NUL, a component over 255 bytes, or over 1,024 bytes in all.
    PathRefused,
    /// 7: the table's ids and end offsets do not fit together.
    BadTable,
    /// 8: no tree is cached at the cursor's prefix.
    CursorStale,
    /// 9: a write is open, and this call is none of its own.
    WriteOpen,
    /// 10: a write's own call, and none is open.
    NoWriteOpen,
    /// 11: the output is too short for the raw tree.
    OutputShort {
        /// The bytes that it needs.
        needed: usize,
    },
    /// 12: the new root isn't a well-formed raw tree.
    BadRoot,
    /// 13: record and store hold no editor: someone else wrote to the store.
    StoreDamaged,
}

impl Error {
    /// The number of the refusal, as the C functions give it.
    pub const fn number(self) -> u8 {
        match self {
            Error::EmptyComponent => 1,
            Error::TreeNotFound => 2,
            Error::TreeDamaged => 3,
            Error::NotALeaf => 4,
            Error::NoRoom => 5,
            Error::PathRefused => 6,
            Error::BadTable => 7,
            Error::CursorStale => 8,
            Error::WriteOpen => 9,
            Error::NoWriteOpen => 10,
            Error::OutputShort { .. } => 11,
            Error::BadRoot => 12,
            Error::StoreDamaged => 13,
        }
    }

    /// The answer of a C function as a result; `needed` is for number 11.
    fn of(number: u8, needed: u64) -> Result<(), Error> {
        Err(match number {
            0 => return Ok(()),
            1 => Error::EmptyComponent,
            2 => Error::TreeNotFound,
            3 => Error::TreeDamaged,
            4 => Error::NotALeaf,
            5 => Error::NoRoom,
            6 => Error::PathRefused,
            7 => Error::BadTable,
            8 => Error::CursorStale,
            9 => Error::WriteOpen,
            10 => Error::NoWriteOpen,
            11 => Error::OutputShort { needed: needed as usize },
            12 => Error::BadRoot,
            13 => Error::StoreDamaged,
            _ => unreachable!("number {number} is for arguments that this crate does not pass"),
        })
    }
}

impl core::fmt::Display for Error {
    fn fmt(&self, f: &mut core::fmt::Formatter<'_>) -> core::fmt::Result {
        write!(f, "{self:?} ({})", self.number())
    }
}
impl core::error::Error for Error {}

/// Why a whole write did not come to its end.
#[derive(Clone, Copy, Debug, PartialEq, Eq)]
pub enum WriteError<E> {
    /// The editor refused.
    Refused(Error),
    /// The closure gave this error for a request; the write was failed there.
    Host(E),
}

/// A call of the library over this editor: the record (`edit`: to be changed, `read`: by value), the five arrays, and the call's own arguments.
macro_rules! call {
    (edit $name:ident, $ed:expr $(, $arg:expr)*) => {{
        let s: &mut Store = $ed.store.borrow_mut();
        // SAFETY: each pointer comes from a borrow of its own that lasts over the call, with its length; the library asks nothing of what they hold.
        unsafe {
            sys::$name(&mut $ed.record, s.plens.as_mut_ptr(), SLOTS as u64, s.paths.as_mut_ptr(), PATHS as u64, s.tlens.as_mut_ptr(),
                SLOTS as u64, s.trees.as_mut_ptr(), TREES as u64, s.order.as_mut_ptr(), SLOTS as u64 $(, $arg)*)
        }
    }};
    (read $name:ident, $ed:expr $(, $arg:expr)*) => {{
        let s: &Store = $ed.store.borrow();
        // SAFETY: as above.
        unsafe {
            sys::$name($ed.record, s.plens.as_ptr(), SLOTS as u64, s.paths.as_ptr(), PATHS as u64, s.tlens.as_ptr(), SLOTS as u64,
                s.trees.as_ptr(), TREES as u64, s.order.as_ptr(), SLOTS as u64 $(, $arg)*)
        }
    }};
}

/// An edit with the editor's table: the call, and its own arguments.
macro_rules! edit {
    ($name:ident, $ed:expr $(, $arg:expr)*) => {{
        let t = $ed.table;
        Error::of(call!(edit $name, $ed, t.ids.as_ptr(), t.ids.len() as u64, t.ends.as_ptr(), t.ends.len() as u64, t.raws.as_ptr(),
            t.raws.len() as u64 $(, $arg)*), 0)
    }};
}

/// The prefix of calls from the root.
const ROOT: &[u8] = &[];

/// An editor over a store that is lent or owned.
#[derive(Clone)]
pub struct Editor<'t, S> {
    record: Record,
    store: S,
    table: Table<'t>,
}

/// A way to keep edits below a path, where a tree is cached.
pub struct Cursor<'e, 'p, 't, S> {
    parent: &'e mut Editor<'t, S>,
    prefix: &'p [u8],
}

impl<'t, S: BorrowMut<Store>> Editor<'t, S> {
    /// Makes an editor with this raw tree as its root (no bytes: the empty tree).
    pub fn new(store: S, root: &[u8], table: Table<'t>) -> Result<Self, Error> {
        let mut ed = Editor { record: Record::default(), store, table };
        Error::of(call!(edit tree_editor_new, ed, root.as_ptr(), root.len() as u64), 0)?;
        Ok(ed)
    }

    /// Sets a new root; all cached trees go.
    pub fn set_root(&mut self, root: &[u8]) -> Result<&mut Self, Error> {
        Error::of(call!(edit tree_editor_set_root, self, root.as_ptr(), root.len() as u64), 0)?;
        Ok(self)
    }

    /// Lends another table to the edits that follow.
    pub fn set_table(&mut self, table: Table<'t>) -> &mut Self {
        self.table = table;
        self
    }

    /// Sets the entry at a path, making the trees on the way.
    pub fn upsert(&mut self, path: impl AsRef<[u8]>, kind: EntryKind, id: Id) -> Result<&mut Self, Error> {
        self.upsert_below(ROOT, path.as_ref(), kind, id)?;
        Ok(self)
    }

    /// Removes the entry at a path, a tree with all below it; nothing happens where there is none.
    pub fn remove(&mut self, path: impl AsRef<[u8]>) -> Result<&mut Self, Error> {
        self.remove_below(ROOT, path.as_ref())?;
        Ok(self)
    }

    /// Removes the entry at a path, unless it is a tree.
    pub fn remove_leaf(&mut self, path: impl AsRef<[u8]>) -> Result<&mut Self, Error> {
        self.remove_leaf_below(ROOT, path.as_ref())?;
        Ok(self)
    }

    /// Looks a path up in the cached trees.
    pub fn get(&self, path: impl AsRef<[u8]>) -> Result<Option<Entry>, Error> {
        self.get_below(ROOT, path.as_ref())
    }

    /// A cursor at the root.
    pub fn to_cursor(&mut self) -> Cursor<'_, 'static, 't, S> {
        Cursor { parent: self, prefix: ROOT }
    }

    /// Opens a cursor at a path, where a tree is then cached: an empty one, if none was, even where the table lists the folder's.
    pub fn cursor_at<'p>(&mut self, path: &'p (impl AsRef<[u8]> + ?Sized)) -> Result<Cursor<'_, 'p, 't, S>, Error> {
        let prefix = path.as_ref();
        edit!(tree_editor_cursor_at, self, prefix.as_ptr(), prefix.len() as u64)?;
        Ok(Cursor { parent: self, prefix })
    }

    /// Writes all trees from the root: `host` gets each tree's path and raw form and gives its id; gives the root's.
    /// Where `host` gives an error, the write is failed there. Where it panics, the write stays open, and [`fail`](Self::fail) ends it.
    pub fn write<E>(&mut self, out: &mut Output, host: impl FnMut(&[u8], &[u8]) -> Result<Id, E>) -> Result<Id, WriteError<E>> {
        self.begin().map_err(WriteError::Refused)?;
        self.finish(out, host)
    }

    /// Begins a write from the root, to be gone through by [`request`](Self::request) and [`answer`](Self::answer), or, after the first
    /// request, by [`answer_and_request`](Self::answer_and_request) alone.
    pub fn begin(&mut self) -> Result<(), Error> {
        Error::of(call!(edit tree_editor_begin, self), 0)
    }

    /// Whether a write is open.
    pub fn is_open(&self) -> bool {
        self.record.open != 0
    }

    /// Reads the open request into an output of any length.
    pub fn request<'o>(&self, raw: &'o mut [u8], path: &'o mut [u8; PATH]) -> Result<Request<'o>, Error> {
        let mut lens = [0; 2];
        let number = call!(read tree_editor_request, self, raw.as_mut_ptr(), raw.len() as u64, path.as_mut_ptr(), PATH as u64,
            lens.as_mut_ptr(), 2);
        Error::of(number, lens[0])?;
        Ok(request_in(lens, raw, path))
    }

    /// Answers the open request with its tree's id.
    pub fn answer(&mut self, id: Id) -> Result<(), Error> {
        Error::of(call!(edit tree_editor_answer, self, id.as_ptr(), id.len() as u64), 0)
    }

    /// Answers the open request with its tree's id and reads the next one into an output of any length, with one check of the store for
    /// both. An error means that the answer was refused, and the request is open as before; where the output is too short for the next
    /// request, the answer is made ([`Answered::Needs`]).
    pub fn answer_and_request<'o>(&mut self, id: Id, raw: &'o mut [u8], path: &'o mut [u8; PATH]) -> Result<Answered<'o>, Error> {
        let (mut lens, mut next) = ([0; 2], [0; 1]);
        let number = call!(edit tree_editor_answer_and_request, self, id.as_ptr(), id.len() as u64, raw.as_mut_ptr(), raw.len() as u64,
            path.as_mut_ptr(), PATH as u64, lens.as_mut_ptr(), 2, next.as_mut_ptr(), 1);
        Error::of(number, 0)?;
        Ok(match Error::of(next[0], lens[0]) {
            Ok(()) => Answered::Next(request_in(lens, raw, path)),
            Err(Error::OutputShort { needed }) => Answered::Needs(needed),
            Err(Error::NoWriteOpen) => Answered::Over,
            Err(e) => unreachable!("{e} is no answer of a reading after an answer"),
        })
    }

    /// Fails the open request: the start tree goes back as it stands, the other taken trees are lost.
    pub fn fail(&mut self) -> Result<(), Error> {
        Error::of(call!(edit tree_editor_fail, self), 0)
    }

    /// Whether record and store hold an editor: `true` unless someone else wrote to the store.
    pub fn holds(&self) -> bool {
        call!(read tree_editor_holds, self) == 1
    }

    /// The store, given back.
    pub fn into_store(self) -> S {
        self.store
    }

    fn finish<E>(&mut self, out: &mut Output, mut host: impl FnMut(&[u8], &[u8]) -> Result<Id, E>) -> Result<Id, WriteError<E>> {
        let mut asked = self.request(&mut out.raw, &mut out.path).map_err(WriteError::Refused)?;
        loop {
            match host(asked.path, asked.raw) {
                Ok(id) => match self.answer_and_request(id, &mut out.raw, &mut out.path).map_err(WriteError::Refused)? {
                    Answered::Next(next) => asked = next,
                    Answered::Over => return Ok(id),
                    Answered::Needs(n) => unreachable!("every request fits in {OUTPUT} bytes, and this one has {n}"),
                },
                Err(e) => {
                    self.fail().map_err(WriteError::Refused)?;
                    return Err(WriteError::Host(e));
                }
            }
        }
    }

    fn upsert_below(&mut self, prefix: &[u8], path: &[u8], kind: EntryKind, id: Id) -> Result<(), Error> {
        edit!(tree_editor_upsert, self, prefix.as_ptr(), prefix.len() as u64, path.as_ptr(), path.len() as u64, id.as_ptr(), id.len() as u64,
            kind as u32)
    }

    fn remove_below(&mut self, prefix: &[u8], path: &[u8]) -> Result<(), Error> {
        edit!(tree_editor_remove, self, prefix.as_ptr(), prefix.len() as u64, path.as_ptr(), path.len() as u64)
    }

    fn remove_leaf_below(&mut self, prefix: &[u8], path: &[u8]) -> Result<(), Error> {
        edit!(tree_editor_remove_leaf, self, prefix.as_ptr(), prefix.len() as u64, path.as_ptr(), path.len() as u64)
    }

    fn get_below(&self, prefix: &[u8], path: &[u8]) -> Result<Option<Entry>, Error> {
        let mut id = NULL;
        let said = call!(read tree_editor_get, self, prefix.as_ptr(), prefix.len() as u64, path.as_ptr(), path.len() as u64,
            id.as_mut_ptr(), id.len() as u64);
        match EntryKind::of(said) {
            Some(kind) => Ok(Some(Entry { kind, id })),
            None => Error::of(said as u8, 0).map(|()| None),
        }
    }
}

/// The request that was read to the fronts of two outputs.
fn request_in<'o>(lens: [u64; 2], raw: &'o [u8], path: &'o [u8]) -> Request<'o> {
    Request { raw: &raw[..lens[0] as usize], path: &path[..lens[1] as usize] }
}

impl<S: BorrowMut<Store>> Cursor<'_, '_, '_, S> {
    /// Like [`Editor::upsert`], below this cursor's path.
    pub fn upsert(&mut self, path: impl AsRef<[u8]>, kind: EntryKind, id: Id) -> Result<&mut Self, Error> {
        self.parent.upsert_below(self.prefix, path.as_ref(), kind, id)?;
        Ok(self)
    }

    /// Like [`Editor::remove`], below this cursor's path.
    pub fn remove(&mut self, path: impl AsRef<[u8]>) -> Result<&mut Self, Error> {
        self.parent.remove_below(self.prefix, path.as_ref())?;
        Ok(self)
    }

    /// Like [`Editor::remove_leaf`], below this cursor's path.
    pub fn remove_leaf(&mut self, path: impl AsRef<[u8]>) -> Result<&mut Self, Error> {
        self.parent.remove_leaf_below(self.prefix, path.as_ref())?;
        Ok(self)
    }

    /// Like [`Editor::get`], below this cursor's path.
    pub fn get(&self, path: impl AsRef<[u8]>) -> Result<Option<Entry>, Error> {
        self.parent.get_below(self.prefix, path.as_ref())
    }

    /// Like [`Editor::write`], for this cursor's tree and those below it.
    pub fn write<E>(&mut self, out: &mut Output, host: impl FnMut(&[u8], &[u8]) -> Result<Id, E>) -> Result<Id, WriteError<E>> {
        let number = call!(edit tree_editor_begin_at, self.parent, self.prefix.as_ptr(), self.prefix.len() as u64);
        Error::of(number, 0).map_err(WriteError::Refused)?;
        self.parent.finish(out, host)
    }
}

/// How many bytes the ids of a tree have.
#[derive(Clone, Copy, Debug, PartialEq, Eq)]
pub enum Width {
    /// 20, as in Git's usual format.
    Sha1 = 20,
    /// 32, as in its SHA-256 format.
    Sha256 = 32,
}

/// What was changed where a damaged tree was mended.
#[repr(C)]
#[derive(Clone, Copy, Debug, Default, PartialEq, Eq)]
pub struct Mended {
    code: u32,
    /// Bytes of the mended tree.
    pub len: u64,
    /// Bytes that were cut off, from the first entry on that could not be read.
    pub cut: u64,
    /// Entries dropped for their name.
    pub badname: u64,
    /// Entries dropped for their mode, their name being good.
    pub badmode: u64,
    /// Entries dropped since their name was kept before.
    pub doubled: u64,
    /// 1 where the entries kept were not in order, else 0.
    pub moved: u64,
}

/// Mends a damaged raw tree, without an editor: entries are read until one can't be, those with a good name and mode and a name that is new are
/// kept, and written in order to the front of `out`. A well-formed tree comes out as it is, and all numbers but its length are 0.
///
/// [`Error::NoRoom`] where the entries kept or their names pass the limits of an editor, [`Error::OutputShort`] where `out` is too short, and
/// [`Error::TreeDamaged`] for 2^29 bytes or more, which no tree has; nothing is written then.
pub fn mend(raw: &[u8], width: Width, out: &mut [u8]) -> Result<Mended, Error> {
    // SAFETY: each pointer comes with its slice's length, and `out` overlaps nothing.
    let mended = unsafe { sys::tree_editor_mend(raw.as_ptr(), raw.len() as u64, width as u64, out.as_mut_ptr(), out.len() as u64) };
    match mended.code {
        0 => Ok(mended),
        5 => Err(Error::NoRoom),
        11 => Err(Error::OutputShort { needed: mended.len as usize }),
        _ => Err(Error::TreeDamaged),
    }
}
