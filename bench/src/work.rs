//! The pieces of work, the same on both sides. Names are those that a course's files have, 9 to 16 bytes, where nothing else is said.
use gix_hash::ObjectId;
use gix_object::Tree;
use gix_object::tree::{Editor as Original, EntryKind as Kind, encode};
use oracle::Table as Objects;
use std::hint::black_box;
use tree_editor::{Editor, EntryKind, Output, Store, Table};

/// An editor of ours with the memory for its output, and one of the original; both with room for what they write.
pub struct Ours {
    ed: Editor<'static, Box<Store>>,
    out: Box<Output>,
    raw: Vec<u8>,
    path: [u8; 1024],
    raws: Vec<u8>,
}
pub struct Theirs {
    ed: Original<'static>,
    raws: Vec<u8>,
}

/// One piece of work. `long`: it takes more than some hundred microseconds.
pub struct Both {
    pub name: &'static str,
    /// What callgrind calls its two functions.
    pub symbols: [&'static str; 2],
    pub long: bool,
    pub ours_start: fn() -> Ours,
    pub ours: fn(&mut Ours),
    pub theirs_start: fn() -> Theirs,
    pub theirs: fn(&mut Theirs),
}

fn id(k: usize) -> [u8; 20] {
    let mut b = [0x11; 20];
    b[12..].copy_from_slice(&(k as u64).to_be_bytes());
    b
}

/// Made once and kept, so that making paths is no part of the work.
macro_rules! kept {
    ($name:ident: $ty:ty = $make:expr) => {
        fn $name() -> &'static $ty {
            static IT: std::sync::OnceLock<$ty> = std::sync::OnceLock::new();
            IT.get_or_init(|| $make)
        }
    };
}

type Paths = Vec<Vec<u8>>;
kept!(thirty: Paths = (0..30).map(|k| format!("hand-in/exercise-{k:02}.c").into_bytes()).collect());
// names of other sorts, thirty of each: of 6 bytes, of 12, of 28 of which 24 are shared, of 200 of which 190 are shared
kept!(of_6: Paths = (0..30).map(|k| format!("hand-in/a{k:03}.c").into_bytes()).collect());
kept!(of_12: Paths = (0..30).map(|k| format!("hand-in/exercise{k:02}.c").into_bytes()).collect());
kept!(of_28: Paths = (0..30).map(|k| format!("hand-in/exercise-09-semihosting-{k:02}.c").into_bytes()).collect());
kept!(of_200: Paths = (0..30).map(|k| format!("hand-in/{}{k:08}.c", "exercise-09-semihosting-".repeat(8).split_at(190).0).into_bytes()).collect());
// in an order that is mixed by a fixed step
kept!(many: Paths = (0..960).map(|k| k * 617 % 960).map(|k| format!("folder-{:02}/ex-{k:04}.c", k % 60).into_bytes()).collect());
kept!(one_folder: Paths = (0..1000).map(|k| k * 617 % 1000).map(|k| format!("all/ex-{k:04}.c").into_bytes()).collect());
kept!(full: Paths = (0..960).map(|k| k * 617 % 960).map(|k| format!("folder-{:02}/exercise-{k:04}.c", k % 63).into_bytes()).collect());
kept!(changes: Paths = (0..30).map(|k| many()[k * 32].clone()).collect());
kept!(lookups: Paths = (0..1000).map(|k| many()[k * 7 % 960].clone()).collect());

/// The trees of `many`, as a table, and the raw root. Kept for good, for both sides.
struct Listed {
    objects: Objects,
    root: Vec<u8>,
}
kept!(listed: Listed = {
    let mut written = Vec::new();
    let mut ed = original(b"", no_objects());
    their_upserts(&mut ed, many());
    let root: Result<ObjectId, ()> = ed.ed.write(|t| {
        written.push(encode(t));
        Ok(ObjectId::from_bytes(id(written.len())))
    });
    root.unwrap();
    let root = written.pop().unwrap();
    let mut objects = Objects::default();
    for (k, raw) in written.iter().enumerate() {
        objects.add(&id(k + 1), raw);
    }
    Listed { objects, root }
});
kept!(no_objects_kept: Objects = Objects::default());
fn no_objects() -> &'static Objects {
    no_objects_kept()
}

fn editor(root: &[u8], objects: &'static Objects) -> Ours {
    let table = Table { ids: &objects.ids, ends: &objects.ends, raws: &objects.raws };
    Ours { ed: Editor::new(Box::default(), root, table).unwrap(), out: Box::default(), raw: vec![0; 45056], path: [0; 1024], raws: Vec::with_capacity(200_000) }
}
fn original(root: &[u8], objects: &'static Objects) -> Theirs {
    let entries = gix_object::tree::decode(root, gix_object::tree::Strict::Rules).unwrap();
    let tree: Tree = gix_object::TreeRef { entries }.into();
    Theirs { ed: Original::new(tree, objects, gix_hash::Kind::Sha1), raws: Vec::with_capacity(200_000) }
}

fn our_upserts(s: &mut Ours, paths: &[Vec<u8>]) {
    for (k, p) in paths.iter().enumerate() {
        s.ed.upsert(black_box(p), EntryKind::Blob, id(k)).unwrap();
    }
}
fn their_upserts(s: &mut Theirs, paths: &[Vec<u8>]) {
    for (k, p) in paths.iter().enumerate() {
        s.ed.upsert(black_box(&p[..]).split(|b| *b == b'/'), Kind::Blob, ObjectId::from_bytes(id(k))).unwrap();
    }
}
fn our_lookups(s: &mut Ours, paths: &[Vec<u8>]) {
    for p in paths {
        black_box(s.ed.get(black_box(p)).unwrap().unwrap());
    }
}
fn their_lookups(s: &mut Theirs, paths: &[Vec<u8>]) {
    for p in paths {
        black_box(s.ed.get(black_box(&p[..]).split(|b| *b == b'/')).unwrap());
    }
}
/// The whole write; each raw tree is put behind the earlier ones, and request k is answered with k.
fn our_write(s: &mut Ours) {
    let Ours { ed, out, raws, .. } = s;
    let mut k = 0;
    ed.write(out, |_, raw| {
        k += 1;
        raws.extend_from_slice(raw);
        Ok::<_, ()>(id(k))
    })
    .unwrap();
}
/// The same by two calls for each tree, with a check of the store in each.
fn our_write_by_two(s: &mut Ours) {
    let Ours { ed, raw, path, raws, .. } = s;
    ed.begin().unwrap();
    let mut k = 0;
    while ed.is_open() {
        k += 1;
        raws.extend_from_slice(ed.request(raw, path).unwrap().raw);
        ed.answer(id(k)).unwrap();
    }
}
fn their_write(s: &mut Theirs) {
    let Theirs { ed, raws } = s;
    let mut k = 0;
    ed.write(|t| {
        k += 1;
        raws.extend_from_slice(&encode(t));
        Ok::<_, ()>(ObjectId::from_bytes(id(k)))
    })
    .unwrap();
}

/// The original's editor after these upserts, built anew each time, for a copy would have other spare room.
fn theirs_after(mut s: Theirs, paths: &[Vec<u8>]) -> Theirs {
    their_upserts(&mut s, paths);
    s
}

type Ready = Editor<'static, Box<Store>>;
/// Ours after these upserts, to be copied.
fn ours_after(mut s: Ours, paths: &[Vec<u8>]) -> Ready {
    our_upserts(&mut s, paths);
    s.ed
}
fn copy(ed: &Ready) -> Ours {
    Ours { ed: ed.clone(), out: Box::default(), raw: vec![0; 45056], path: [0; 1024], raws: Vec::with_capacity(200_000) }
}
kept!(after_thirty: Ready = ours_after(editor(NOTHING, no_objects()), thirty()));
kept!(after_many: Ready = ours_after(editor(NOTHING, no_objects()), many()));
kept!(after_full: Ready = ours_after(editor(NOTHING, no_objects()), full()));
kept!(after_loaded: Ready = ours_after(editor(&listed().root, &listed().objects), many()));

/// Makes everything that is kept.
pub fn warm() {
    black_box((of_6(), of_12(), of_28(), of_200()));
    black_box((thirty(), many(), one_folder(), full(), changes(), lookups(), beside(), behind(), first(), one()));
    black_box((listed(), after_thirty(), after_many(), after_full(), after_loaded()));
}

/// The functions of each piece of work, with names that callgrind shows; what each is called keeps the compiler from making two of them one.
macro_rules! pieces {
    ($($name:literal, $long:literal, $ours:ident, $theirs:ident: $os:expr; $ow:expr; $ts:expr; $tw:expr;)*) => {
        $(
            #[inline(never)]
            #[unsafe(no_mangle)]
            fn $ours(s: &mut Ours) { black_box($name); let f: fn(&mut Ours) = $ow; f(s) }
            #[inline(never)]
            #[unsafe(no_mangle)]
            fn $theirs(s: &mut Theirs) { black_box($name); let f: fn(&mut Theirs) = $tw; f(s) }
        )*
        pub fn all() -> Vec<Both> {
            vec![$(Both { name: $name, symbols: [stringify!($ours), stringify!($theirs)], long: $long, ours_start: || $os, ours: $ours, theirs_start: || $ts, theirs: $theirs }),*]
        }
    };
}

const NOTHING: &[u8] = b"";
kept!(beside: Paths = vec![b"hand-in/exercise-15a.c".to_vec()]);
kept!(behind: Paths = vec![b"hand-in/exercise-30.c".to_vec()]);
// a name that comes first in the root: everything behind it moves
kept!(first: Paths = vec![b"a-first.c".to_vec()]);
kept!(one: Paths = vec![full()[480].clone()]);

pieces! {
    "30 upserts in one folder", false, w_ours_thirty, w_theirs_thirty:
        editor(NOTHING, no_objects()); |s| our_upserts(s, thirty());
        original(NOTHING, no_objects()); |s| their_upserts(s, thirty());
    "30 upserts, names of 6 bytes", false, w_ours_of_6, w_theirs_of_6:
        editor(NOTHING, no_objects()); |s| our_upserts(s, of_6());
        original(NOTHING, no_objects()); |s| their_upserts(s, of_6());
    "30 upserts, names of 12 bytes", false, w_ours_of_12, w_theirs_of_12:
        editor(NOTHING, no_objects()); |s| our_upserts(s, of_12());
        original(NOTHING, no_objects()); |s| their_upserts(s, of_12());
    "30 upserts, names of 28 bytes, 24 shared", false, w_ours_of_28, w_theirs_of_28:
        editor(NOTHING, no_objects()); |s| our_upserts(s, of_28());
        original(NOTHING, no_objects()); |s| their_upserts(s, of_28());
    "30 upserts, names of 200 bytes, 190 shared", false, w_ours_of_200, w_theirs_of_200:
        editor(NOTHING, no_objects()); |s| our_upserts(s, of_200());
        original(NOTHING, no_objects()); |s| their_upserts(s, of_200());
    "960 upserts over 60 folders", true, w_ours_many, w_theirs_many:
        editor(NOTHING, no_objects()); |s| our_upserts(s, many());
        original(NOTHING, no_objects()); |s| their_upserts(s, many());
    "30 changes, their 30 folders loaded on the way", true, w_ours_loading, w_theirs_loading:
        editor(&listed().root, &listed().objects); |s| our_upserts(s, changes());
        original(&listed().root, &listed().objects); |s| their_upserts(s, changes());
    "30 changes, all 61 trees loaded before", true, w_ours_loaded, w_theirs_loaded:
        copy(after_loaded()); |s| our_upserts(s, changes());
        theirs_after(original(&listed().root, &listed().objects), many()); |s| their_upserts(s, changes());
    "1,000 lookups in 61 trees with 960 files", true, w_ours_lookups, w_theirs_lookups:
        copy(after_many()); |s| our_lookups(s, lookups());
        theirs_after(original(NOTHING, no_objects()), many()); |s| their_lookups(s, lookups());
    "1,000 upserts in one folder", true, w_ours_one_folder, w_theirs_one_folder:
        editor(NOTHING, no_objects()); |s| our_upserts(s, one_folder());
        original(NOTHING, no_objects()); |s| their_upserts(s, one_folder());
    "the write of 61 trees with 960 files", true, w_ours_write, w_theirs_write:
        copy(after_many()); our_write;
        theirs_after(original(NOTHING, no_objects()), many()); their_write;
    "the same write by requests and answers in calls of their own", true, w_ours_write_by_two, w_theirs_write_again:
        copy(after_many()); our_write_by_two;
        theirs_after(original(NOTHING, no_objects()), many()); their_write;
    "the write of 2 trees with 30 files", false, w_ours_small_write, w_theirs_small_write:
        copy(after_thirty()); our_write;
        theirs_after(original(NOTHING, no_objects()), thirty()); their_write;
    "an upsert beside 30 files", false, w_ours_upsert_30, w_theirs_upsert_30:
        copy(after_thirty()); |s| our_upserts(s, beside());
        theirs_after(original(NOTHING, no_objects()), thirty()); |s| their_upserts(s, beside());
    "an upsert behind 30 files", false, w_ours_behind_30, w_theirs_behind_30:
        copy(after_thirty()); |s| our_upserts(s, behind());
        theirs_after(original(NOTHING, no_objects()), thirty()); |s| their_upserts(s, behind());
    "an upsert into a full store, moving all of it", false, w_ours_upsert_full, w_theirs_upsert_full:
        copy(after_full()); |s| our_upserts(s, first());
        theirs_after(original(NOTHING, no_objects()), full()); |s| their_upserts(s, first());
    "a lookup beside 30 files", false, w_ours_get_30, w_theirs_get_30:
        copy(after_thirty()); |s| our_lookups(s, &thirty()[15..16]);
        theirs_after(original(NOTHING, no_objects()), thirty()); |s| their_lookups(s, &thirty()[15..16]);
    "a lookup in a full store", false, w_ours_get_full, w_theirs_get_full:
        copy(after_full()); |s| our_lookups(s, one());
        theirs_after(original(NOTHING, no_objects()), full()); |s| their_lookups(s, one());
}

/// Both sides write the same bytes after the same work, and the full store is full.
pub fn agree() {
    for b in all() {
        let mut ours = (b.ours_start)();
        let mut theirs = (b.theirs_start)();
        (b.ours)(&mut ours);
        (b.theirs)(&mut theirs);
        if ours.raws.is_empty() {
            our_write(&mut ours);
            their_write(&mut theirs);
        }
        assert!(ours.raws == theirs.raws, "the two write other bytes after: {}", b.name);
        assert!(!ours.raws.is_empty());
    }
    let mut filled = copy(after_full());
    filled.ed.upsert("one-more", EntryKind::Blob, id(1)).unwrap();
    assert_eq!(filled.ed.upsert("two-more", EntryKind::Blob, id(1)).err().map(|e| e.number()), Some(5));
}

/// The check of the store at the states of the pieces above, alone: what it takes of each call.
#[inline(never)]
#[unsafe(no_mangle)]
fn w_check_30(s: &Ours) {
    assert!(black_box(s.ed.holds()));
}
#[inline(never)]
#[unsafe(no_mangle)]
fn w_check_full(s: &Ours) {
    assert!(black_box(s.ed.holds()));
}
#[inline(never)]
#[unsafe(no_mangle)]
fn w_check_write(s: &Ours) {
    assert!(black_box(s.ed.holds()));
}
#[inline(never)]
#[unsafe(no_mangle)]
fn w_begin(s: &mut Ours) {
    s.ed.begin().unwrap();
}
#[inline(never)]
#[unsafe(no_mangle)]
fn w_request(s: &mut Ours, path: &mut [u8; 1024], raw: &mut [u8]) {
    black_box(s.ed.request(raw, path).unwrap());
}
#[inline(never)]
#[unsafe(no_mangle)]
fn w_answer_and_request(s: &mut Ours, k: usize, path: &mut [u8; 1024], raw: &mut [u8]) {
    let _ = black_box(s.ed.answer_and_request(id(k), raw, path).unwrap());
}

/// Where the instructions of single calls and of the write go: its calls one by one, and the check once for each of them.
pub fn split() {
    w_check_30(&copy(after_thirty()));
    w_check_full(&copy(after_full()));
    let mut s = copy(after_many());
    let (mut path, mut raw) = ([0; 1024], vec![0; 45056]);
    w_check_write(&s);
    w_begin(&mut s);
    w_check_write(&s);
    w_request(&mut s, &mut path, &mut raw);
    for k in 1.. {
        w_check_write(&s);
        w_answer_and_request(&mut s, k, &mut path, &mut raw);
        if !s.ed.is_open() {
            break;
        }
    }
}
