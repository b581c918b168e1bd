//! The twelve cases of the rules (docs/RULES.md), and the wrapper's own parts, through the safe calls.
use tree_editor::{Answered, Editor, EntryKind, Error, Id, NULL, Output, Store, Table, WriteError};

const B: Id = [0x11; 20];
const EMPTY: Id =
    [0x4b, 0x82, 0x5d, 0xc6, 0x42, 0xcb, 0x6e, 0xb9, 0xa0, 0x60, 0xe5, 0x4b, 0xf8, 0xd6, 0x92, 0x88, 0xfb, 0xee, 0x49, 0x04];

type Boxed<'t> = Editor<'t, Box<Store>>;

fn raw(entries: &[(&str, &[u8], Id)]) -> Vec<u8> {
    entries.iter().flat_map(|(mode, name, id)| [mode.as_bytes(), b" ", name, b"\0", id].concat()).collect()
}

fn editor<'t>(root: &[u8], table: Table<'t>) -> Boxed<'t> {
    Editor::new(Box::default(), root, table).unwrap()
}

fn empty() -> Boxed<'static> {
    editor(b"", Table::default())
}

fn blob(ed: &mut Boxed<'_>, path: &str) -> Result<(), Error> {
    ed.upsert(path, EntryKind::Blob, B).map(|_| ())
}

/// The requests of a write from the root, answered k as a 20-byte number; a failure at request `fail`.
fn written(ed: &mut Boxed<'_>, fail: usize) -> (Vec<(String, Vec<u8>)>, Result<Id, WriteError<&'static str>>) {
    let mut seen = Vec::new();
    let result = ed.write(&mut Output::new(), |path, raw| {
        seen.push((String::from_utf8(path.to_vec()).unwrap(), raw.to_vec()));
        if seen.len() == fail { Err("no") } else { Ok(number(seen.len() as u8)) }
    });
    (seen, result)
}

fn number(k: u8) -> Id {
    let mut id = NULL;
    id[19] = k;
    id
}

fn paths(ed: &mut Boxed<'_>) -> Vec<String> {
    written(ed, 0).0.into_iter().map(|(path, _)| path).collect()
}

/// The raw root, read by a write that fails at its first request of the root itself.
fn root(ed: &mut Boxed<'_>) -> Vec<u8> {
    let mut root = Vec::new();
    let _ = ed.write(&mut Output::new(), |path, raw| {
        if path.is_empty() {
            root = raw.to_vec();
            Err(())
        } else {
            Ok(B)
        }
    });
    root
}

#[test]
fn case_1_and_2() {
    let mut ed = empty();
    blob(&mut ed, "a/b").unwrap();
    let a = ed.get("a").unwrap().unwrap();
    assert_eq!((a.kind, a.id), (EntryKind::Tree, NULL));
    let b = ed.get("a/b").unwrap().unwrap();
    assert_eq!((b.kind, b.id), (EntryKind::Blob, B));
    let (seen, result) = written(&mut ed, 0);
    let want = [("a".to_string(), raw(&[("100644", b"b", B)])), (String::new(), raw(&[("40000", b"a", number(1))]))];
    assert_eq!(seen, want);
    assert_eq!(result, Ok(number(2)));
}

#[test]
fn case_3() {
    let mut ed = empty();
    assert_eq!(blob(&mut ed, "a/"), Err(Error::EmptyComponent));
    assert_eq!(ed.get("a").unwrap().unwrap().kind, EntryKind::Tree);
    assert_eq!(written(&mut ed, 0), (vec![(String::new(), vec![])], Ok(number(1))));
}

#[test]
fn case_4() {
    let mut ed = editor(&raw(&[("100644", b"a.c", B), ("40000", b"a", B)]), Table::default());
    blob(&mut ed, "a").unwrap();
    assert_eq!(root(&mut ed), raw(&[("100644", b"a", B), ("100644", b"a.c", B)]));
}

#[test]
fn case_5() {
    let mut ed = empty();
    blob(&mut ed, "é").unwrap();
    blob(&mut ed, "z").unwrap();
    assert_eq!(root(&mut ed), raw(&[("100644", b"z", B), ("100644", b"\xc3\xa9", B)]));
}

#[test]
fn case_6() {
    let mut ed = empty();
    ed.remove("x/y").unwrap();
    assert_eq!(written(&mut ed, 0), (vec![(String::new(), vec![])], Ok(number(1))));
}

#[test]
fn case_7() {
    let start = raw(&[("40000", b"a", EMPTY)]);
    let mut ed = editor(&start, Table::default());
    ed.remove_leaf("a/b").unwrap();
    assert_eq!(paths(&mut ed), [""]);
    ed.set_root(&start).unwrap().remove("a/b").unwrap();
    // `a` is cached now, and empty: the write drops its entry
    assert_eq!(root(&mut ed), b"");
}

#[test]
fn case_8() {
    let mut ed = empty();
    blob(&mut ed, "a/b").unwrap();
    ed.remove("a").unwrap();
    assert_eq!(ed.get("a"), Ok(None));
    blob(&mut ed, "a/c").unwrap();
    assert_eq!(written(&mut ed, 0).0[0], ("a".to_string(), raw(&[("100644", b"b", B), ("100644", b"c", B)])));
}

#[test]
fn case_9() {
    let mut ed = empty();
    ed.upsert("a", EntryKind::Tree, NULL).unwrap();
    assert_eq!(blob(&mut ed, "a/b"), Err(Error::TreeNotFound));
    let listed = raw(&[("100755", b"x", B)]);
    let ends = [listed.len() as u32];
    ed.set_table(Table { ids: &NULL, ends: &ends, raws: &listed });
    ed.upsert("a/b", EntryKind::Blob, B).unwrap();
    assert_eq!(ed.get("a/x").unwrap().unwrap().kind, EntryKind::BlobExecutable);
}

#[test]
fn case_10() {
    let (d, listed) = ([0xd1; 20], raw(&[("100644", b"f", B)]));
    let ends = [listed.len() as u32];
    let mut ed = editor(&raw(&[("40000", b"d", d)]), Table { ids: &d, ends: &ends, raws: &listed });
    let mut cursor = ed.cursor_at("d").unwrap();
    assert_eq!(cursor.get("f"), Ok(None));
    cursor.upsert("g", EntryKind::Link, B).unwrap();
    assert_eq!(ed.get("d").unwrap().unwrap().id, NULL);
    assert_eq!(ed.get("d/g").unwrap().unwrap().kind, EntryKind::Link);
}

fn pq(files: [&str; 3]) -> Boxed<'static> {
    static IDS: [u8; 40] = [0x0a; 40];
    let mut ed =
        editor(&raw(&[("40000", b"p", [0x0a; 20]), ("40000", b"q", [0x0a; 20])]), Table { ids: &IDS, ends: &[0, 0], raws: b"" });
    for file in files {
        blob(&mut ed, file).unwrap();
    }
    ed
}

#[test]
fn case_11() {
    assert_eq!(paths(&mut pq(["p/f", "q/f", "p/s/f"])), ["q", "p/s", "p", ""]);
    assert_eq!(paths(&mut pq(["p/f", "q/f", "q/r/f"])), ["q/r", "p", "q", ""]);
}

#[test]
fn case_12() {
    let mut ed = pq(["p/f", "q/f", "p/s/f"]);
    let (seen, result) = written(&mut ed, 2);
    assert_eq!((seen.len(), result), (2, Err(WriteError::Host("no"))));
    assert_eq!(ed.get("q").unwrap().unwrap().id, number(1));
    assert_eq!(ed.get("p").unwrap().unwrap().id, [0x0a; 20]);
    assert_eq!((ed.get("p/f"), ed.get("q/f")), (Ok(None), Ok(None)));
    assert!(!ed.is_open());
}

#[test]
fn refusals() {
    let mut ed = empty();
    assert_eq!(blob(&mut ed, &"n".repeat(256)), Err(Error::PathRefused));
    assert_eq!(ed.set_root(b"x").map(|_| ()), Err(Error::BadRoot));
    assert_eq!(ed.answer(B), Err(Error::NoWriteOpen));
    ed.set_table(Table { ids: &[1], ends: &[], raws: &[] });
    assert_eq!(blob(&mut ed, "a"), Err(Error::BadTable));
    ed.set_table(Table::default());
    blob(&mut ed, "a/b").unwrap();
    assert_eq!(ed.remove_leaf("a").map(|_| ()), Err(Error::NotALeaf));
    for k in 0..62 {
        ed.cursor_at(&format!("t{k}")).unwrap();
    }
    assert_eq!(ed.cursor_at("u").map(|_| ()), Err(Error::NoRoom));
    ed.begin().unwrap();
    assert_eq!(blob(&mut ed, "c"), Err(Error::WriteOpen));
    assert_eq!(ed.get("a"), Err(Error::WriteOpen));
    assert_eq!(ed.begin(), Err(Error::WriteOpen));
    assert_eq!(ed.request(&mut [0; 3], &mut [0; 1024]), Err(Error::OutputShort { needed: 29 }));
    ed.fail().unwrap();
    assert!(Editor::new(&mut Store::new(), b"no tree", Table::default()).is_err_and(|e| e.number() == 12));
}

#[test]
fn an_answer_reads_the_next_request() {
    let mut ed = pq(["p/f", "q/f", "p/s/f"]);
    let (mut out, mut path) = (vec![0; 45056], [0; 1024]);
    assert_eq!(ed.answer_and_request(B, &mut out, &mut path), Err(Error::NoWriteOpen));
    ed.begin().unwrap();
    assert_eq!(ed.request(&mut out, &mut path).unwrap().path, b"q");
    // too little room: the answer is made, and the next request stays open
    assert_eq!(ed.answer_and_request(number(1), &mut out[..3], &mut path), Ok(Answered::Needs(29)));
    assert_eq!(ed.request(&mut out[..3], &mut path), Err(Error::OutputShort { needed: 29 }));
    assert_eq!(ed.request(&mut out[..29], &mut path).unwrap().path, b"p/s");
    for (k, path_of_next, raw_of_next) in [
        (2, &b"p"[..], raw(&[("100644", b"f", B), ("40000", b"s", number(2))])),
        (3, b"", raw(&[("40000", b"p", number(3)), ("40000", b"q", number(1))])),
    ] {
        let Ok(Answered::Next(asked)) = ed.answer_and_request(number(k), &mut out, &mut path) else { panic!("no request {k}") };
        assert_eq!((asked.path, asked.raw), (path_of_next, &raw_of_next[..]));
    }
    assert_eq!(ed.answer_and_request(number(4), &mut out, &mut path), Ok(Answered::Over));
    assert!(!ed.is_open() && ed.holds());
}

#[test]
fn a_cursor_writes_its_own_tree() {
    let mut store = Store::new();
    let mut ed = Editor::new(&mut store, b"", Table::default()).unwrap();
    ed.upsert("x/y", EntryKind::Blob, B).unwrap();
    let mut cursor = ed.cursor_at("d").unwrap();
    cursor.upsert("e/f", EntryKind::Blob, B).unwrap().upsert("g", EntryKind::Commit, B).unwrap();
    cursor.remove("g").unwrap().remove_leaf("none").unwrap();
    let mut seen = Vec::new();
    let id = cursor.write(&mut Output::new(), |path, _| {
        seen.push(path.to_vec());
        Ok::<_, ()>(number(seen.len() as u8))
    });
    assert_eq!((seen, id), (vec![b"d/e".to_vec(), b"d".to_vec()], Ok(number(2))));
    assert_eq!(ed.get("x/y").unwrap().unwrap().id, B);
    assert!(ed.holds());
    // a cursor at the root writes from there
    assert_eq!(ed.to_cursor().write(&mut Output::new(), |_, _| Ok::<_, ()>(B)), Ok(B));
}

#[test]
fn sizes() {
    assert_eq!(std::mem::size_of::<Store>(), 48_640);
    // the record, the table's three slices and the pointer to the store
    assert_eq!(std::mem::size_of::<Editor<'_, &mut Store>>(), 80 + 48 + 8);
}
