//! The original outside the rules' domain (docs/RULES.md): where it panics, with the smallest inputs found (docs/DIFFERENCES.md).
use bstr::BString;
use gix_hash::ObjectId;
use gix_object::tree::{Editor, EntryKind, Strict, decode};
use gix_object::{Tree, TreeRef};
use oracle::Table;
use std::panic::{AssertUnwindSafe, catch_unwind};

const B: [u8; 20] = [0x11; 20];

fn id(b: [u8; 20]) -> ObjectId {
    ObjectId::from_bytes(b)
}
/// Tree entries with the empty-tree id, in this order, read without the rules' demands.
fn root(names: &[&str]) -> Tree {
    let mut raw = Vec::new();
    for n in names {
        raw.extend_from_slice(format!("40000 {n}\0").as_bytes());
        raw.extend_from_slice(&gix_hash::EMPTY_TREE);
    }
    assert!(decode(&raw, Strict::Rules).is_none(), "outside the domain");
    TreeRef { entries: decode(&raw, Strict::FormOnly).unwrap() }.into()
}
fn write(e: &mut Editor<'_>) {
    let done: Result<ObjectId, ()> = e.write(|_| Ok(id(B)));
    done.unwrap();
}

/// A component with a slash: its tree is cached as `a/b`, and the write looks for the name `b` in the root.
#[test]
#[should_panic(expected = "the parent always knows us by name")]
fn component_with_a_slash() {
    let t = Table::default();
    let mut e = Editor::new(Tree::default(), &t, gix_hash::Kind::Sha1);
    e.upsert(["a/b", "x"], EntryKind::Blob, id(B)).ok().unwrap();
    write(&mut e);
}

/// The same from a root that holds such a name: `a` compares equal to the tree `a/b`.
#[test]
#[should_panic(expected = "the parent always knows us by name")]
fn root_name_with_a_slash() {
    let t = Table::default();
    let mut e = Editor::new(root(&["a/b"]), &t, gix_hash::Kind::Sha1);
    e.upsert(["a", "b", "x"], EntryKind::Blob, id(B)).ok().unwrap();
    write(&mut e);
}

/// An unsorted root: `b` isn't found, so it is inserted again, and removed again; its tree stays cached under the first.
#[test]
#[should_panic(expected = "the parent always knows us by name")]
fn unsorted_root() {
    let t = Table::default();
    let mut e = Editor::new(root(&["b", "a"]), &t, gix_hash::Kind::Sha1);
    e.upsert(["b", "f"], EntryKind::Blob, id(B)).ok().unwrap();
    e.remove(["b"]).ok().unwrap();
    write(&mut e);
}

/// A component that ends in a slash: a debug assertion; without it the tree below is cached as `a//b`.
#[test]
fn component_ending_in_a_slash() {
    let t = Table::default();
    let mut e = Editor::new(Tree::default(), &t, gix_hash::Kind::Sha1);
    let r = catch_unwind(AssertUnwindSafe(|| e.upsert(["a/", "b", "x"], EntryKind::Blob, id(B)).map(|_| ()).is_ok()));
    if cfg!(debug_assertions) {
        assert!(r.is_err());
    } else {
        assert!(r.is_ok_and(|done| done));
        assert!(e.trees.contains_key(&BString::from(b"a//b".to_vec())));
    }
}

/// A closure that unwinds takes the root with it; the next call panics.
#[test]
fn closure_that_unwinds() {
    let t = Table::default();
    let mut e = Editor::new(Tree::default(), &t, gix_hash::Kind::Sha1);
    let r = catch_unwind(AssertUnwindSafe(|| e.write(|_| -> Result<ObjectId, ()> { panic!("the host") })));
    assert!(r.is_err());
    let r = catch_unwind(AssertUnwindSafe(|| e.get(["a"]).is_none()));
    let text = r.unwrap_err();
    let text = text.downcast_ref::<String>().cloned().or(text.downcast_ref::<&str>().map(|s| s.to_string()));
    assert_eq!(text.as_deref(), Some("root is always present"));
}

/// A file and a tree of one name: edits change the file, lookups see the tree.
#[test]
fn twins() {
    let t = Table::default();
    let mut raw = b"100644 a\0".to_vec();
    raw.extend_from_slice(&B);
    raw.extend_from_slice(b"40000 a\0");
    raw.extend_from_slice(&gix_hash::EMPTY_TREE);
    assert!(decode(&raw, Strict::Rules).is_none());
    let twins: Tree = TreeRef { entries: decode(&raw, Strict::FormOnly).unwrap() }.into();
    let mut e = Editor::new(twins, &t, gix_hash::Kind::Sha1);
    e.upsert(["a"], EntryKind::BlobExecutable, id([0x22; 20])).ok().unwrap();
    assert!(e.get(["a"]).unwrap().mode.is_tree());
    assert_eq!(e.trees[&BString::default()].entries[0].oid, id([0x22; 20]));
}
