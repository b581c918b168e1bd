//! The small program (docs/RULES.md) over the original editor.
use gix_object::tree::{EntryKind, kind_of};
use oracle::{Edit, ObjectId, Session, WriteStep, hex, id, unhex};
use std::io::{Read, Write};

struct Rec {
    edit: Edit,
    path: Vec<u8>,
}

/// Err(N): the first line that breaks the form.
fn parse(input: &[u8]) -> Result<Vec<Rec>, usize> {
    if input.len() > 65536 {
        return Err(0);
    }
    let mut lines: Vec<(&[u8], bool)> = Vec::new(); // text, ended by a newline
    let mut rest = input;
    while !rest.is_empty() {
        match rest.iter().position(|b| *b == b'\n') {
            Some(p) => {
                lines.push((&rest[..p], true));
                rest = &rest[p + 1..];
            }
            None => {
                lines.push((rest, false));
                rest = &[];
            }
        }
    }
    let mut out = Vec::new();
    let mut at = 0;
    while at < lines.len() {
        let mut op = "";
        let mut path = Vec::new();
        let mut kind = None::<EntryKind>;
        let mut oid = None::<ObjectId>;
        for k in 0..4 {
            let n = at + k + 1;
            let (text, ended) = *lines.get(at + k).ok_or(n)?;
            if !ended {
                return Err(n);
            }
            let text = std::str::from_utf8(text).map_err(|_| n)?;
            let key = ["op=", "path=", "kind=", "id="][k];
            let v = text.strip_prefix(key).ok_or(n)?;
            match k {
                0 => match v {
                    "upsert" | "remove" | "leaf" => op = v,
                    _ => return Err(n),
                },
                1 => path = unhex(v).ok_or(n)?,
                2 if op == "upsert" => {
                    kind = Some(match v {
                        "40000" | "100644" | "100755" | "120000" | "160000" => {
                            kind_of(u32::from_str_radix(v, 8).unwrap()).unwrap()
                        }
                        _ => return Err(n),
                    })
                }
                3 if op == "upsert" => oid = Some(id(v).ok_or(n)?),
                _ => {
                    if !v.is_empty() {
                        return Err(n);
                    }
                }
            }
        }
        let edit = match op {
            "upsert" => Edit::Upsert(kind.unwrap(), oid.unwrap()),
            "remove" => Edit::Remove,
            _ => Edit::Leaf,
        };
        out.push(Rec { edit, path });
        at += 4;
    }
    Ok(out)
}

fn main() {
    let mut input = Vec::new();
    std::io::stdin().take(65537).read_to_end(&mut input).unwrap();
    let mut out = Vec::new();
    match parse(&input) {
        Err(n) => writeln!(out, "bad={n}").unwrap(),
        Ok(recs) => {
            let mut s = Session::default();
            assert_eq!(s.make(b""), 0);
            for (k, r) in recs.iter().enumerate() {
                let c = s.edit(r.edit, None, &r.path);
                if c != 0 {
                    writeln!(out, "edit={}\ncode={c}", k + 1).unwrap();
                }
            }
            let mut k = 0u64;
            let mut step = s.begin(None);
            loop {
                match step {
                    WriteStep::Request => {
                        let o = s.open.as_ref().unwrap();
                        writeln!(out, "tree={}\nraw={}", hex(&o.req_path), hex(&o.req_raw)).unwrap();
                        k += 1;
                        let mut b = [0; 20];
                        b[12..].copy_from_slice(&k.to_be_bytes());
                        step = s.answer(ObjectId::from_bytes(b));
                    }
                    WriteStep::Done(id) => {
                        writeln!(out, "root={id}").unwrap();
                        break;
                    }
                    WriteStep::Refused(c) => panic!("write refused: {c}"),
                }
            }
        }
    }
    std::io::stdout().write_all(&out).unwrap();
}
