//! Line protocol for differential runs; see PROTOCOL.md.
use gix_object::tree::{Strict, decode, encode, kind_of};
use gix_object::{Tree, TreeRef};
use oracle::{Edit, Session, Trees, WriteStep, git_tree_id, hex, id, room, sorted, unhex};
use std::io::{BufRead, BufWriter, Write};

fn h(b: &[u8]) -> String {
    if b.is_empty() { "-".into() } else { hex(b) }
}
fn u(s: &str) -> Vec<u8> {
    if s == "-" { vec![] } else { unhex(s).unwrap_or_else(|| panic!("bad hex {s}")) }
}
fn prefix(s: &str) -> Option<Vec<u8>> {
    if s == "." { None } else { Some(u(s)) }
}
/// What a dump shows of trees and entries: their lines, the Adler-32 of those lines, nothing.
#[derive(Clone, Copy, PartialEq)]
enum Dump {
    Lines,
    Sum,
    Counts,
}
fn adler32(text: &[u8]) -> u32 {
    let (mut a, mut b) = (1u32, 0u32);
    for part in text.chunks(5552) {
        for c in part {
            a += *c as u32;
            b += a;
        }
        (a, b) = (a % 65521, b % 65521);
    }
    b << 16 | a
}
fn dump(out: &mut impl Write, label: &str, t: &Trees, shown: Dump) {
    let r = room(t);
    writeln!(out, " {label} trees={} entries={} names={} paths={}", r.0, r.1, r.2, r.3).unwrap();
    match shown {
        Dump::Lines => lines(out, t),
        Dump::Sum => {
            let mut text = Vec::new();
            lines(&mut text, t);
            writeln!(out, "  sum {:08x}", adler32(&text)).unwrap();
        }
        Dump::Counts => {}
    }
}
fn lines(out: &mut impl Write, t: &Trees) {
    for (p, t) in sorted(t) {
        writeln!(out, "  tree {} {}", h(p), t.entries.len()).unwrap();
        for e in &t.entries {
            writeln!(out, "   {:o} {} {}", e.mode.0, h(&e.filename), e.oid).unwrap();
        }
    }
}

fn main() {
    let mut strict = Strict::Rules;
    let mut brief = false;
    for a in std::env::args().skip(1) {
        match &a[..] {
            "--lenient" => strict = Strict::FormOnly,
            "--brief" => brief = true,
            _ => panic!("unknown option {a}"),
        }
    }
    let stdin = std::io::stdin().lock();
    let mut out = BufWriter::with_capacity(1 << 16, std::io::stdout().lock());
    let interactive = std::env::var_os("ORACLE_FLUSH").is_some();
    let fresh = || {
        let mut s = Session::default();
        s.table.strict = strict;
        s
    };
    let mut s = fresh();
    let mut runs = 0;
    let mut shown = Dump::Lines;
    let mut calls = 0u64;
    let mut states = 0u64;
    for line in stdin.lines() {
        let line = line.unwrap();
        let t: Vec<&str> = line.split_ascii_whitespace().collect();
        if t.is_empty() || t[0].starts_with('#') {
            continue;
        }
        calls += 1;
        let mut show = true;
        let mut step = None;
        let mut force = false;
        match t[0] {
            "dump" => {
                shown = match t[1] {
                    "on" => Dump::Lines,
                    "sum" => Dump::Sum,
                    _ => Dump::Counts,
                };
                show = false;
            }
            "show" => {
                force = true;
                writeln!(out, "show").unwrap();
            }
            "trace" => {
                runs += s.runs;
                s = fresh();
                shown = Dump::Lines;
                writeln!(out, "{line}").unwrap();
                show = false;
            }
            "object" => {
                s.table.add(&u(t[1]), &u(t[2]));
                show = false;
            }
            "table" => {
                s.table.ids = u(t[1]);
                s.table.ends = if t[2] == "-" { vec![] } else { t[2].split(',').map(|x| x.parse().unwrap()).collect() };
                s.table.raws = u(t[3]);
                show = false;
            }
            "new" => writeln!(out, "{line} => {}", s.make(&u(t[1]))).unwrap(),
            "setroot" => writeln!(out, "{line} => {}", s.set_root(&u(t[1]))).unwrap(),
            "upsert" => {
                let e = Edit::Upsert(kind_of(u32::from_str_radix(t[3], 8).unwrap()).unwrap(), id(t[4]).unwrap());
                writeln!(out, "{line} => {}", s.edit(e, prefix(t[1]).as_deref(), &u(t[2]))).unwrap()
            }
            "remove" => writeln!(out, "{line} => {}", s.edit(Edit::Remove, prefix(t[1]).as_deref(), &u(t[2]))).unwrap(),
            "leaf" => writeln!(out, "{line} => {}", s.edit(Edit::Leaf, prefix(t[1]).as_deref(), &u(t[2]))).unwrap(),
            "cursor" => writeln!(out, "{line} => {}", s.edit(Edit::Cursor, None, &u(t[1]))).unwrap(),
            "get" => match s.get(prefix(t[1]).as_deref(), &u(t[2])) {
                Err(c) => writeln!(out, "{line} => {c}").unwrap(),
                Ok(None) => writeln!(out, "{line} => none").unwrap(),
                Ok(Some(e)) => writeln!(out, "{line} => 0 {:o} {}", e.mode.0, e.oid).unwrap(),
            },
            "begin" => {
                let p = prefix(t[1]);
                step = Some(s.begin(p.as_deref()));
            }
            "answer" => step = Some(s.answer(id(t[1]).unwrap())),
            "fail" => writeln!(out, "{line} => {}", s.fail()).unwrap(),
            "read" => {
                let n: usize = t[1].parse().unwrap();
                show = false;
                match &s.open {
                    _ if s.trees.is_none() => writeln!(out, "{line} => 13").unwrap(),
                    None => writeln!(out, "{line} => 10").unwrap(),
                    Some(o) if n < o.req_raw.len() => writeln!(out, "{line} => 11 {}", o.req_raw.len()).unwrap(),
                    Some(o) => writeln!(out, "{line} => 0 {} {}", h(&o.req_path), h(&o.req_raw)).unwrap(),
                }
            }
            // a write answered with Git's own ids; with `keep`, each written tree is put into the table
            "finish" => {
                let p = prefix(t[1]);
                let keep = t.get(2) == Some(&"keep");
                let mut st = s.begin(p.as_deref());
                loop {
                    match st {
                        WriteStep::Refused(c) => {
                            writeln!(out, "{line} => {c}").unwrap();
                            break;
                        }
                        WriteStep::Request => {
                            let o = s.open.as_ref().unwrap();
                            let (rp, rr) = (o.req_path.clone(), o.req_raw.clone());
                            let i = git_tree_id(&rr);
                            writeln!(out, " wrote {} {} {i}", h(&rp), h(&rr)).unwrap();
                            if keep {
                                s.table.add(i.as_bytes(), &rr);
                            }
                            st = s.answer(i);
                        }
                        WriteStep::Done(i) => {
                            writeln!(out, "{line} => 0 done {i}").unwrap();
                            break;
                        }
                    }
                }
            }
            // stand-in checks: no editor
            "decode" => {
                show = false;
                let raw = u(t[1]);
                match decode(&raw, strict) {
                    None => writeln!(out, "decode damaged").unwrap(),
                    Some(es) => {
                        write!(out, "decode {}", es.len()).unwrap();
                        for e in &es {
                            write!(out, " {:o}:{}:{}", e.mode.0, h(e.filename), e.oid).unwrap();
                        }
                        writeln!(out).unwrap();
                        let tree: Tree = TreeRef { entries: es }.into();
                        assert_eq!(encode(&tree), raw);
                    }
                }
            }
            "sort" => {
                // sort mode:name:id ...  -> raw form in the stand-in's order
                show = false;
                let mut tree = Tree::default();
                for e in &t[1..] {
                    let f: Vec<&str> = e.split(':').collect();
                    tree.entries.push(gix_object::tree::Entry {
                        mode: kind_of(u32::from_str_radix(f[0], 8).unwrap()).unwrap().into(),
                        filename: u(f[1]).into(),
                        oid: id(f[2]).unwrap(),
                    });
                }
                tree.entries.sort();
                let raw = encode(&tree);
                writeln!(out, "sort {} {}", h(&raw), git_tree_id(&raw)).unwrap();
            }
            _ => panic!("unknown call {line}"),
        }
        match step {
            None => {}
            Some(WriteStep::Refused(c)) => writeln!(out, "{line} => {c}").unwrap(),
            Some(WriteStep::Done(i)) => writeln!(out, "{line} => 0 done {i}").unwrap(),
            Some(WriteStep::Request) => {
                let o = s.open.as_ref().unwrap();
                writeln!(out, "{line} => 0 request {} {}", h(&o.req_path), h(&o.req_raw)).unwrap()
            }
        }
        // Every state the original leaves is made of well-formed trees (docs/RULES.md), and the room is kept.
        if strict == Strict::Rules && show {
            let t = s.open.as_ref().map(|o| &o.if_fail).or(s.trees.as_ref());
            for (p, t) in t.into_iter().flatten() {
                assert!(decode(&encode(t), strict).is_some(), "tree at {p:?} is not well formed after {line}");
            }
            assert!(t.is_none_or(oracle::fits));
            states += 1;
        }
        if force || show && !brief {
            let shown = if force { Dump::Lines } else { shown };
            match (&s.open, &s.trees) {
                (Some(o), _) => dump(&mut out, "if-fail", &o.if_fail, shown),
                (None, Some(t)) => dump(&mut out, "state", t, shown),
                (None, None) => writeln!(out, " no editor").unwrap(),
            }
        }
        if interactive {
            out.flush().unwrap();
        }
    }
    runs += s.runs;
    out.flush().unwrap();
    if std::env::var_os("ORACLE_STATS").is_some() {
        eprintln!("lines={calls} runs-of-the-original={runs} states-checked-well-formed={states}");
    }
}
