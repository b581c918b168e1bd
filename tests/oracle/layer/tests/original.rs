//! The original called directly, without the layer: points where its comments, its domain or its std helpers matter.
use bstr::BString;
use gix_hash::ObjectId;
use gix_object::Tree;
use gix_object::tree::editor::{Error, access};
use gix_object::tree::{Editor, EntryKind, Strict, decode, encode};
use oracle::Table;

fn id(b: u8) -> ObjectId {
    ObjectId::from_bytes([b; 20])
}
fn keys(e: &Editor<'_>) -> Vec<String> {
    let mut v: Vec<_> = e.trees.keys().map(|k| format!("{k:?}")).collect();
    v.sort();
    v
}

/// Comment of cursor_at: "a single empty string ... is equivalent to using the current instance itself". Code: refused.
#[test]
fn single_empty_string() {
    let t = Table::default();
    let mut e = Editor::new(Tree::default(), &t, gix_hash::Kind::Sha1);
    assert!(matches!(e.cursor_at([""]), Err(Error::EmptyPathComponent)));
    assert!(matches!(e.upsert([""], EntryKind::Blob, id(1)), Err(Error::EmptyPathComponent)));
    assert!(matches!(e.remove([""]), Err(Error::EmptyPathComponent)));
    assert!(matches!(e.remove_leaf([""]), Err(Error::EmptyPathComponent)));
    assert!(e.get([""]).is_none());
    assert_eq!(e.trees.len(), 1);
    assert!(e.trees[&BString::default()].entries.is_empty());
    // no components at all: DONE, cursor at the root
    let none: [&str; 0] = [];
    assert_eq!(access::prefix(&e.cursor_at(none).ok().unwrap()).len(), 0);
    e.upsert(none, EntryKind::Blob, id(1)).ok().unwrap();
    e.remove(none).ok().unwrap();
    e.remove_leaf(none).ok().unwrap();
    assert!(e.get(none).is_none());
    assert!(e.trees[&BString::default()].entries.is_empty());
}

/// Comment of upsert: paths through null placeholders "will not be considered a problem". Code: the null id is looked up.
#[test]
fn null_placeholder() {
    let t = Table::default();
    let mut e = Editor::new(Tree::default(), &t, gix_hash::Kind::Sha1);
    e.upsert(["a"], EntryKind::Tree, gix_hash::Kind::Sha1.null()).ok().unwrap();
    assert!(matches!(e.upsert(["a", "b"], EntryKind::Blob, id(1)), Err(Error::FindExistingObject(_))));
    assert!(matches!(e.remove(["a", "b"]), Err(Error::FindExistingObject(_))));
    assert!(matches!(e.remove_leaf(["a", "b"]), Err(Error::FindExistingObject(_))));
    // but a null *file* placeholder on the way is turned into a tree without a lookup
    let mut e = Editor::new(Tree::default(), &t, gix_hash::Kind::Sha1);
    e.upsert(["a"], EntryKind::Blob, gix_hash::Kind::Sha1.null()).ok().unwrap();
    assert!(e.upsert(["a", "b"], EntryKind::Blob, id(1)).is_ok());
}

/// Outside the rules' domain (docs/RULES.md): a component with a slash, a NUL or 300 bytes is taken as it is.
#[test]
fn wider_domain() {
    let t = Table::default();
    let mut e = Editor::new(Tree::default(), &t, gix_hash::Kind::Sha1);
    let long = "n".repeat(300);
    e.upsert(["a/b"], EntryKind::Blob, id(1)).ok().unwrap();
    e.upsert(["a\0b"], EntryKind::Blob, id(1)).ok().unwrap();
    e.upsert([&long[..]], EntryKind::Blob, id(1)).ok().unwrap();
    assert_eq!(e.trees[&BString::default()].entries.len(), 3);
    // Names with a slash fall outside the order: "a" as a tree and "a/b" compare equal (only one byte past the common
    // part is compared, in Git's base_name_compare too), so `a` is taken for the tree "a/b" and its null id looked up.
    let mut e = Editor::new(Tree::default(), &t, gix_hash::Kind::Sha1);
    e.upsert(["a/b", "x"], EntryKind::Blob, id(1)).ok().unwrap();
    assert!(matches!(e.upsert(["a", "b", "y"], EntryKind::Blob, id(1)), Err(Error::FindExistingObject(_))));
    assert_eq!(keys(&e), ["\"\"", "\"a/b\""]);
}

/// The longest raw tree within the room is 45,056 bytes.
#[test]
fn longest_raw() {
    let mut t = Tree::default();
    for k in 0..1024u32 {
        t.entries.push(gix_object::tree::Entry {
            mode: EntryKind::Blob.into(),
            filename: format!("{k:016}").into_bytes().into(),
            oid: id(1),
        });
    }
    let raw = encode(&t);
    assert_eq!(raw.len(), 45056);
    assert!(decode(&raw, Strict::Rules).is_some());
}

/// std's binary_search_by (what the original calls) against request Ten's ceiling of "binary digits of n".
#[test]
fn std_search_counts() {
    let mut over = Vec::new();
    for n in 0..=1024usize {
        let v: Vec<usize> = (0..n).map(|k| 2 * k + 1).collect();
        let mut worst = 0;
        for key in 0..=2 * n {
            let mut c = 0;
            let _ = v.binary_search_by(|x| {
                c += 1;
                x.cmp(&key)
            });
            worst = worst.max(c);
        }
        let digits = (usize::BITS - n.leading_zeros()) as usize;
        if worst > digits {
            over.push((n, worst, digits));
        }
    }
    println!("n where std compares more than binary digits of n: {} of 1025, first {:?}, last {:?}", over.len(), &over[..over.len().min(6)], over.last());
}
