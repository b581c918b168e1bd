//! Edits after a write: only the root is cached then, so the trees that were written have to be lent as a table.
use tree_editor::{Editor, EntryKind, Error, Id, NULL, Output, Store, Table};

const FILE: Id = [0x11; 20];

/// The trees that a host was given and keeps, with ids of its own, in the form that a table is lent in.
#[derive(Clone, Default)]
struct Kept {
    ids: Vec<u8>,
    ends: Vec<u32>,
    raws: Vec<u8>,
}

impl Kept {
    fn keep(&mut self, raw: &[u8]) -> Id {
        let id = [0x20 + self.ends.len() as u8; 20];
        self.ids.extend(id);
        self.raws.extend(raw);
        self.ends.push(self.raws.len() as u32);
        id
    }

    fn table(&self) -> Table<'_> {
        Table { ids: &self.ids, ends: &self.ends, raws: &self.raws }
    }

    fn raw(&self, id: Id) -> &[u8] {
        let k = self.ids.chunks(20).position(|i| i == id).expect("a tree that was kept");
        &self.raws[if k == 0 { 0 } else { self.ends[k - 1] as usize }..self.ends[k] as usize]
    }
}

/// Writes everything, keeps the trees, and gives their paths and the root's id.
fn write<S: std::borrow::BorrowMut<Store>>(ed: &mut Editor<'_, S>, kept: &mut Kept) -> (Vec<String>, Id) {
    let mut paths = Vec::new();
    let root = ed.write(&mut Output::new(), |path, raw| {
        paths.push(String::from_utf8(path.to_vec()).unwrap());
        Ok::<_, ()>(kept.keep(raw))
    });
    (paths, root.unwrap())
}

fn names(mut raw: &[u8]) -> Vec<String> {
    let mut found = Vec::new();
    while let Some(nul) = raw.iter().position(|b| *b == 0) {
        let space = raw.iter().position(|b| *b == b' ').unwrap();
        found.push(String::from_utf8(raw[space + 1..nul].to_vec()).unwrap());
        raw = &raw[nul + 21..];
    }
    found
}

#[test]
fn the_trees_just_written_are_lent_to_the_next_edit() {
    let (mut store, mut kept) = (Store::new(), Kept::default());
    let mut ed = Editor::new(&mut store, b"", Table::default()).unwrap();
    ed.upsert("hand-in/one.c", EntryKind::Blob, FILE).unwrap().upsert("notes", EntryKind::Blob, FILE).unwrap();
    let (paths, _) = write(&mut ed, &mut kept);
    assert_eq!(paths, ["hand-in", ""]);

    // the folder is not cached any more: its entry is seen, with the id that was answered, and nothing below it
    assert_eq!(ed.get("hand-in").unwrap().unwrap().id, [0x20; 20]);
    assert_eq!(ed.get("hand-in/one.c"), Ok(None));
    // without a table that lists it, an edit below it is refused
    assert_eq!(ed.upsert("hand-in/two.c", EntryKind::Blob, FILE).map(|_| ()), Err(Error::TreeNotFound));
    // with it, the folder is loaded, and what it held stays; its id in a lookup is the old one until the next write
    let lent = kept.clone();
    ed.set_table(lent.table());
    ed.upsert("hand-in/two.c", EntryKind::Blob, FILE).unwrap();
    assert_eq!(ed.get("hand-in/one.c").unwrap().unwrap().id, FILE);
    assert_eq!(ed.get("hand-in").unwrap().unwrap().id, [0x20; 20]);
    let (paths, root) = write(&mut ed, &mut kept);
    assert_eq!((paths, root), (vec!["hand-in".to_string(), String::new()], [0x23; 20]));
    assert_eq!(names(kept.raw([0x22; 20])), ["one.c", "two.c"]);
    assert_eq!(names(kept.raw(root)), ["hand-in", "notes"]);
    assert_eq!(ed.get("hand-in").unwrap().unwrap().id, [0x22; 20]);
}

#[test]
fn a_cursor_at_an_uncached_folder_forgets_what_it_held() {
    let (mut store, mut kept) = (Store::new(), Kept::default());
    let mut ed = Editor::new(&mut store, b"", Table::default()).unwrap();
    ed.upsert("hand-in/one.c", EntryKind::Blob, FILE).unwrap();
    let (_, root) = write(&mut ed, &mut kept);
    let root = kept.raw(root).to_vec();
    let lent = kept.clone();

    // opened at once, the cursor stands in an empty folder
    ed.set_table(lent.table());
    ed.cursor_at("hand-in").unwrap().upsert("two.c", EntryKind::Blob, FILE).unwrap();
    assert_eq!(ed.get("hand-in").unwrap().unwrap().id, NULL);
    write(&mut ed, &mut kept);
    assert_eq!(names(kept.raw([0x22; 20])), ["two.c"]);

    // an edit below the folder loads it, and the cursor then stands in what was loaded
    ed.set_root(&root).unwrap().remove("hand-in/none").unwrap();
    ed.cursor_at("hand-in").unwrap().upsert("two.c", EntryKind::Blob, FILE).unwrap();
    write(&mut ed, &mut kept);
    assert_eq!(names(kept.raw([0x24; 20])), ["one.c", "two.c"]);
}

#[test]
fn small_surprises() {
    let (mut store, mut kept) = (Store::new(), Kept::default());
    let mut ed = Editor::new(&mut store, b"", Table::default()).unwrap();
    // a path of no bytes names nothing, and `a/` leaves the tree `a`
    ed.upsert("", EntryKind::Blob, FILE).unwrap().remove("").unwrap();
    assert_eq!(ed.get(""), Ok(None));
    ed.cursor_at("").unwrap().upsert("at-root", EntryKind::Blob, FILE).unwrap().remove("at-root").unwrap();
    assert_eq!(ed.upsert("a/", EntryKind::Blob, FILE).map(|_| ()), Err(Error::EmptyComponent));
    assert_eq!(ed.get("a").unwrap().unwrap().kind, EntryKind::Tree);
    // null ids vanish at the write, and so do trees without entries
    ed.upsert("null", EntryKind::Blob, NULL).unwrap().upsert("b/null", EntryKind::Blob, NULL).unwrap();
    let (paths, root) = write(&mut ed, &mut kept);
    assert_eq!((paths, kept.raw(root)), (vec![String::new()], &b""[..]));
    // making an editor starts over, whatever lies in the store
    ed.upsert("c", EntryKind::Blob, FILE).unwrap();
    ed.begin().unwrap();
    let mut ed = Editor::new(&mut store, b"", Table::default()).unwrap();
    assert_eq!((ed.is_open(), ed.get("c")), (false, Ok(None)));
    assert!(ed.upsert("d", EntryKind::Blob, FILE).is_ok());
}
