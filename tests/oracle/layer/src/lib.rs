//! The layer around the original: the numbers of docs/RULES.md, room, table, open writes. Walks, lookups and writes are
//! always made by the original's own code.
use bstr::{BStr, BString};
pub use gix_hash::ObjectId;
use gix_object::tree::editor::{Error as EditError, access};
use gix_object::tree::{Editor, Entry, EntryKind, Strict, decode, encode};
use gix_object::{FindExt, Tree, TreeRef, find::existing_object};
use std::collections::{BTreeMap, HashMap};
use std::panic::{AssertUnwindSafe, catch_unwind, resume_unwind};

pub type Trees = HashMap<BString, Tree>;

pub const MAX_TREES: usize = 64;
pub const MAX_ENTRIES: usize = 1024;
pub const MAX_NAME_BYTES: usize = 16384;
pub const MAX_PATH_BYTES: usize = 8192;
pub const MAX_PATH: usize = 1024;
pub const MAX_NAME: usize = 255;

/// The lent table of docs/RULES.md.
#[derive(Clone)]
pub struct Table {
    pub ids: Vec<u8>,
    pub ends: Vec<u32>,
    pub raws: Vec<u8>,
    pub strict: Strict,
}
impl Default for Table {
    fn default() -> Self {
        Table { ids: vec![], ends: vec![], raws: vec![], strict: Strict::Rules }
    }
}
impl Table {
    pub fn add(&mut self, id: &[u8], raw: &[u8]) {
        self.ids.extend_from_slice(id);
        // `object` after a bad `table` line keeps it bad; no matter.
        self.raws.extend_from_slice(raw);
        self.ends.push(self.raws.len() as u32);
    }
    pub fn valid(&self) -> bool {
        self.ids.len() == 20 * self.ends.len()
            && self.ends.windows(2).all(|w| w[0] <= w[1])
            && self.ends.last().is_none_or(|e| *e as usize <= self.raws.len())
    }
    pub fn find(&self, id: &[u8]) -> Option<&[u8]> {
        let k = self.ids.chunks(20).position(|c| c == id)?;
        let from = if k == 0 { 0 } else { self.ends[k - 1] as usize };
        Some(&self.raws[from..self.ends[k] as usize])
    }
}
impl FindExt for Table {
    fn find_tree<'a>(&self, id: &ObjectId, buffer: &'a mut Vec<u8>) -> Result<TreeRef<'a>, existing_object::Error> {
        let raw = self
            .find(id.as_bytes())
            .ok_or(existing_object::Error::NotFound { oid: *id })?;
        buffer.clear();
        buffer.extend_from_slice(raw);
        match decode(buffer, self.strict) {
            Some(entries) => Ok(TreeRef { entries }),
            None => Err(existing_object::Error::Decode { oid: *id, source: Default::default() }),
        }
    }
}

#[derive(Clone, Copy, Debug)]
pub enum Edit {
    Upsert(EntryKind, ObjectId),
    Remove,
    Leaf,
    /// Open a cursor (from the editor itself only).
    Cursor,
}

/// What an open write stands on: the editor before it, and the answers so far. The original is run again from there.
#[derive(Clone)]
pub struct Open {
    pub before: Trees,
    pub start: Option<Vec<u8>>, // None: root; Some: cursor's prefix
    pub answers: Vec<ObjectId>,
    pub req_path: Vec<u8>,
    pub req_raw: Vec<u8>,
    /// What a failure reported now would leave.
    pub if_fail: Trees,
}

#[derive(Clone, Default)]
pub struct Session {
    pub table: Table,
    pub trees: Option<Trees>,
    pub open: Option<Open>,
    /// Count of the original's walks and writes made, for reports.
    pub runs: u64,
}

pub enum WriteStep {
    Refused(u8),
    Request,
    Done(ObjectId),
}

pub fn components(path: &[u8]) -> Vec<&BStr> {
    if path.is_empty() {
        return vec![];
    }
    path.split(|b| *b == b'/').map(BStr::new).collect()
}

pub fn path_refused(prefix: &[u8], path: &[u8]) -> bool {
    let total = if prefix.is_empty() || path.is_empty() {
        prefix.len() + path.len()
    } else {
        prefix.len() + 1 + path.len()
    };
    path.contains(&0) || total > MAX_PATH || path.split(|b| *b == b'/').any(|c| c.len() > MAX_NAME)
}

/// (trees, entries, name bytes, path bytes)
pub fn room(t: &Trees) -> (usize, usize, usize, usize) {
    let mut r = (t.len(), 0, 0, 0);
    for (p, tree) in t {
        r.3 += p.len();
        r.1 += tree.entries.len();
        r.2 += tree.entries.iter().map(|e| e.filename.len()).sum::<usize>();
    }
    r
}
pub fn fits(t: &Trees) -> bool {
    let r = room(t);
    r.0 <= MAX_TREES && r.1 <= MAX_ENTRIES && r.2 <= MAX_NAME_BYTES && r.3 <= MAX_PATH_BYTES
}

/// Components handed to the original one by one; unwinds when asked for number `stop`. The original asks for number
/// j+2 (while looking ahead) just after step j is done and before step j+1 changes anything, so the editor is then
/// seen as step j left it.
struct Probe<'a, 'b> {
    comps: &'b [&'a BStr],
    asked: usize,
    stop: usize,
}
struct Stopped;
impl<'a> Iterator for Probe<'a, '_> {
    type Item = &'a BStr;
    fn next(&mut self) -> Option<&'a BStr> {
        if self.asked == self.stop {
            resume_unwind(Box::new(Stopped));
        }
        self.asked += 1;
        self.comps.get(self.asked - 1).copied()
    }
}

pub fn editor<'f>(table: &'f Table, trees: Trees) -> Editor<'f> {
    Editor {
        find: table,
        object_hash: gix_hash::Kind::Sha1,
        trees,
        path_buf: BString::default().into(),
        tree_buf: Vec::new(),
    }
}

/// One edit by the original, the iterator stopping at `stop`. `None`: stopped.
fn walk(table: &Table, trees: Trees, edit: Edit, prefix: Option<&[u8]>, comps: &[&BStr], stop: usize) -> (Trees, Option<Result<(), EditError>>) {
    let mut ed = editor(table, trees);
    let it = Probe { comps, asked: 0, stop };
    let r = catch_unwind(AssertUnwindSafe(|| match prefix {
        None => match edit {
            Edit::Upsert(k, id) => ed.upsert(it, k, id).map(|_| ()),
            Edit::Remove => ed.remove(it).map(|_| ()),
            Edit::Leaf => ed.remove_leaf(it).map(|_| ()),
            Edit::Cursor => ed.cursor_at(it).map(|c| {
                let want: Vec<u8> = comps.iter().map(|c| c.to_vec()).collect::<Vec<_>>().join(&b'/');
                assert_eq!(*access::prefix(&c), want, "the cursor stands where it was opened");
            }),
        },
        Some(p) => {
            let mut c = access::cursor(&mut ed, p.to_vec().into());
            match edit {
                Edit::Upsert(k, id) => c.upsert(it, k, id).map(|_| ()),
                Edit::Remove => c.remove(it).map(|_| ()),
                Edit::Leaf => c.remove_leaf(it).map(|_| ()),
                Edit::Cursor => unreachable!("the original opens cursors from the editor only"),
            }
        }
    }));
    let trees = ed.trees;
    match r {
        Ok(r) => (trees, Some(r)),
        Err(p) if p.is::<Stopped>() => (trees, None),
        Err(p) => resume_unwind(p),
    }
}

pub fn number(r: &Result<(), EditError>) -> u8 {
    match r {
        Ok(()) => 0,
        Err(EditError::EmptyPathComponent) => 1,
        Err(EditError::FindExistingObject(existing_object::Error::NotFound { .. })) => 2,
        Err(EditError::FindExistingObject(existing_object::Error::Decode { .. })) => 3,
        Err(EditError::CannotRemoveNonLeaf { .. }) => 4,
        Err(e) => panic!("no number for {e}"),
    }
}

impl Session {
    fn root(&self, raw: &[u8]) -> Result<Tree, u8> {
        let t: Tree = match decode(raw, self.table.strict) {
            Some(entries) => TreeRef { entries }.into(),
            None => return Err(12),
        };
        let trees = Trees::from_iter([(BString::default(), t.clone())]);
        if fits(&trees) { Ok(t) } else { Err(5) }
    }

    /// Make an editor. Looks at no earlier content.
    pub fn make(&mut self, raw: &[u8]) -> u8 {
        match self.root(raw) {
            Err(c) => c,
            Ok(t) => {
                self.trees = Some(Editor::new(t, &self.table, gix_hash::Kind::Sha1).trees);
                self.open = None;
                0
            }
        }
    }

    pub fn set_root(&mut self, raw: &[u8]) -> u8 {
        if self.trees.is_none() {
            return 13;
        }
        if self.open.is_some() {
            return 9;
        }
        match self.root(raw) {
            Err(c) => c,
            Ok(t) => {
                let trees = self.trees.take().unwrap();
                let mut ed = editor(&self.table, trees);
                ed.set_root(t);
                self.trees = Some(ed.trees);
                0
            }
        }
    }

    pub fn edit(&mut self, edit: Edit, prefix: Option<&[u8]>, path: &[u8]) -> u8 {
        if self.trees.is_none() {
            return 13;
        }
        if self.open.is_some() {
            return 9;
        }
        if !self.table.valid() {
            return 7;
        }
        let trees = self.trees.take().unwrap();
        let (after, code) = self.edit_inner(trees, edit, prefix, path);
        self.trees = Some(after);
        code
    }

    fn edit_inner(&mut self, before: Trees, edit: Edit, prefix: Option<&[u8]>, path: &[u8]) -> (Trees, u8) {
        if prefix.is_some_and(|p| !before.contains_key(BStr::new(p))) {
            return (before, 8);
        }
        if path_refused(prefix.unwrap_or(b""), path) {
            return (before, 6);
        }
        let comps = components(path);
        for stop in 2..=comps.len() {
            self.runs += 1;
            let (t, r) = walk(&self.table, before.clone(), edit, prefix, &comps, stop);
            if !fits(&t) {
                return (before, 5);
            }
            if r.is_some() {
                break; // it stopped by itself before this step
            }
        }
        self.runs += 1;
        let (t, r) = walk(&self.table, before.clone(), edit, prefix, &comps, usize::MAX);
        if !fits(&t) {
            return (before, 5);
        }
        (t, number(&r.expect("not stopped")))
    }

    /// Err: refused. Ok(None): not found.
    pub fn get(&mut self, prefix: Option<&[u8]>, path: &[u8]) -> Result<Option<Entry>, u8> {
        if self.trees.is_none() {
            return Err(13);
        }
        if self.open.is_some() {
            return Err(9);
        }
        let trees = self.trees.as_ref().unwrap();
        if prefix.is_some_and(|p| !trees.contains_key(BStr::new(p))) {
            return Err(8);
        }
        if path_refused(prefix.unwrap_or(b""), path) {
            return Err(6);
        }
        let trees = self.trees.take().unwrap();
        let mut ed = editor(&self.table, trees);
        let comps = components(path);
        self.runs += 1;
        let r = match prefix {
            None => ed.get(comps).cloned(),
            Some(p) => access::cursor(&mut ed, p.to_vec().into()).get(comps).cloned(),
        };
        self.trees = Some(ed.trees);
        Ok(r)
    }

    /// Run the original's write with these answers, failing at the first request past them.
    fn run_write(&mut self, before: &Trees, start: Option<&[u8]>, answers: &[ObjectId]) -> (Trees, Result<ObjectId, (Vec<u8>, Vec<u8>)>) {
        self.runs += 1;
        let mut trees = before.clone();
        for (k, t) in trees.iter_mut() {
            t.at = k.clone();
        }
        let mut ed = editor(&self.table, trees);
        let mut k = 0;
        let out = |t: &Tree| {
            k += 1;
            answers.get(k - 1).copied().ok_or_else(|| (t.at.to_vec(), encode(t)))
        };
        let r = match start {
            None => ed.write(out),
            Some(p) => access::cursor(&mut ed, p.to_vec().into()).write(out),
        };
        (ed.trees, r)
    }

    fn advance(&mut self, before: Trees, start: Option<Vec<u8>>, answers: Vec<ObjectId>) -> WriteStep {
        let (after, r) = self.run_write(&before, start.as_deref(), &answers);
        match r {
            Ok(id) => {
                self.trees = Some(after);
                self.open = None;
                WriteStep::Done(id)
            }
            Err((req_path, req_raw)) => {
                self.open = Some(Open { before, start, answers, req_path, req_raw, if_fail: after });
                WriteStep::Request
            }
        }
    }

    pub fn begin(&mut self, start: Option<&[u8]>) -> WriteStep {
        if self.trees.is_none() {
            return WriteStep::Refused(13);
        }
        if self.open.is_some() {
            return WriteStep::Refused(9);
        }
        let trees = self.trees.clone().unwrap();
        if start.is_some_and(|p| !trees.contains_key(BStr::new(p))) {
            return WriteStep::Refused(8);
        }
        self.advance(trees, start.map(|p| p.to_vec()), vec![])
    }

    pub fn answer(&mut self, id: ObjectId) -> WriteStep {
        if self.trees.is_none() {
            return WriteStep::Refused(13);
        }
        match self.open.take() {
            None => WriteStep::Refused(10),
            Some(mut o) => {
                o.answers.push(id);
                self.advance(o.before, o.start, o.answers)
            }
        }
    }

    pub fn fail(&mut self) -> u8 {
        if self.trees.is_none() {
            return 13;
        }
        match self.open.take() {
            None => 10,
            Some(o) => {
                self.trees = Some(o.if_fail);
                0
            }
        }
    }
}

pub fn sorted(t: &Trees) -> BTreeMap<&[u8], &Tree> {
    t.iter().map(|(k, v)| (&k[..], v)).collect()
}

pub fn hex(b: &[u8]) -> String {
    b.iter().flat_map(|x| [x >> 4, x & 15]).map(|d| b"0123456789abcdef"[d as usize] as char).collect()
}
pub fn unhex(s: &str) -> Option<Vec<u8>> {
    let s = s.as_bytes();
    if s.len() % 2 != 0 {
        return None;
    }
    let d = |c: u8| match c {
        b'0'..=b'9' => Some(c - b'0'),
        b'a'..=b'f' => Some(c - b'a' + 10),
        _ => None,
    };
    s.chunks(2).map(|p| Some(d(p[0])? * 16 + d(p[1])?)).collect()
}
pub fn id(s: &str) -> Option<ObjectId> {
    Some(ObjectId::from_bytes(unhex(s)?.try_into().ok()?))
}
/// The id Git gives a raw tree.
pub fn git_tree_id(raw: &[u8]) -> ObjectId {
    let mut m = format!("tree {}\0", raw.len()).into_bytes();
    m.extend_from_slice(raw);
    ObjectId::from_bytes(gix_hash::sha1(&m))
}
