//! A damaged tree mended, in both widths of ids.
use tree_editor::{mend, Error, Width};

/// A raw entry with an id of `n` bytes.
fn entry(mode: &str, name: &[u8], n: usize, id: u8) -> Vec<u8> {
    [mode.as_bytes(), b" ", name, b"\0", &vec![id; n]].concat()
}

#[test]
fn mended() {
    for (width, n) in [(Width::Sha1, 20), (Width::Sha256, 32)] {
        let (a, b) = (entry("100644", b"a.c", n, 1), entry("40000", b"a", n, 2));
        let raw = [
            &b[..],
            &a,
            &entry("100644", b"", n, 3),
            &entry("100645", b"x", n, 4),
            &entry("100644", b"a.c", n, 5),
            b"100644 cut",
        ]
        .concat();
        let mut out = [7; 256];
        let m = mend(&raw, width, &mut out).unwrap();
        assert_eq!((m.cut, m.badname, m.badmode, m.doubled, m.moved), (10, 1, 1, 1, 1));
        let whole = [a, b].concat();
        assert_eq!(&out[..m.len as usize], whole);
        assert!(out[m.len as usize..].iter().all(|&byte| byte == 7));
        // the mended tree is well formed: it comes out as it is
        let mut again = [0; 256];
        let m = mend(&whole, width, &mut again).unwrap();
        assert_eq!((m.len as usize, m.cut, m.badname, m.badmode, m.doubled, m.moved), (whole.len(), 0, 0, 0, 0, 0));
        // an output that is too short is left as it was
        let mut short = [7; 8];
        assert_eq!(mend(&raw, width, &mut short), Err(Error::OutputShort { needed: whole.len() }));
        assert_eq!(short, [7; 8]);
    }
}
