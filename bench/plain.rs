//! A plain program of the same meaning as `emake -I IMAGE a` over the images of `bench/image`,
//! without any proof: it reads an image, empties a new file `/a`, which stamps the root, writes it,
//! and replaces the image. `bench/image` measures it beside emake.
//!
//!     rustc --edition 2021 -O bench/plain.rs -o plain && ./plain IMAGE
use std::collections::BTreeMap;
use std::fs::{self, File};
use std::io::{self, Write};

enum Node {
    File(u64, Vec<u8>),
    Dir(u64),
}

impl Node {
    fn stamp(&self) -> u64 {
        match self {
            Node::File(stamp, _) | Node::Dir(stamp) => *stamp,
        }
    }
}

type Tree = BTreeMap<Vec<u8>, Node>;

struct Reader<'a> {
    rest: &'a [u8],
}

impl<'a> Reader<'a> {
    fn take(&mut self, n: usize) -> Option<&'a [u8]> {
        let (piece, rest) = self.rest.split_at_checked(n)?;
        self.rest = rest;
        Some(piece)
    }

    fn fixed(&mut self, text: &[u8]) -> Option<()> {
        (self.take(text.len())? == text).then_some(())
    }

    fn until(&mut self, ends: impl Fn(u8) -> bool) -> Option<&'a [u8]> {
        let n = self.rest.iter().position(|b| ends(*b))?;
        self.take(n)
    }

    fn number(&mut self) -> Option<u64> {
        let digits = self.until(|b| !b.is_ascii_digit())?;
        if digits.is_empty() || (digits[0] == b'0' && digits.len() > 1) {
            return None;
        }
        std::str::from_utf8(digits).ok()?.parse().ok()
    }
}

fn parent(path: &[u8]) -> Option<&[u8]> {
    let slash = path.iter().rposition(|b| *b == b'/')?;
    (path.len() > 1).then(|| &path[..slash.max(1)])
}

fn is_path(path: &[u8]) -> bool {
    path == b"/"
        || (path.len() <= 1024
            && path.first() == Some(&b'/')
            && path.iter().filter(|b| **b == b'/').count() <= 64
            && path[1..]
                .split(|b| *b == b'/')
                .all(|name| !matches!(name, b"" | b"." | b"..") && !name.contains(&0)))
}

fn read(bytes: &[u8]) -> Option<Tree> {
    let mut reader = Reader { rest: bytes };
    reader.fixed(b"EMTREE 1\n")?;
    let mut tree = Tree::new();
    let mut last: &[u8] = b"";
    loop {
        let mark = reader.take(1)?[0];
        if mark == b'.' {
            reader.fixed(b"\n")?;
            return reader.rest.is_empty().then_some(tree);
        }
        reader.fixed(b" ")?;
        let stamp = reader.number()?;
        reader.fixed(b" ")?;
        let size = match mark {
            b'd' => None,
            b'f' => {
                let size = reader.number()?;
                reader.fixed(b" ")?;
                Some(usize::try_from(size).ok()?)
            }
            _ => return None,
        };
        let path = reader.until(|b| b == b'\n')?;
        reader.fixed(b"\n")?;
        if path <= last || !is_path(path) {
            return None;
        }
        if let Some(above) = parent(path) {
            if !matches!(tree.get(above), Some(Node::Dir(_))) {
                return None;
            }
        }
        let node = match size {
            None => Node::Dir(stamp),
            Some(size) => {
                let body = reader.take(size)?.to_vec();
                reader.fixed(b"\n")?;
                Node::File(stamp, body)
            }
        };
        tree.insert(path.to_vec(), node);
        last = path;
    }
}

fn write(tree: &Tree) -> io::Result<Vec<u8>> {
    let mut out = b"EMTREE 1\n".to_vec();
    for (path, node) in tree {
        match node {
            Node::File(stamp, body) => {
                write!(out, "f {stamp} {} ", body.len())?;
                out.extend_from_slice(path);
                out.push(b'\n');
                out.extend_from_slice(body);
            }
            Node::Dir(stamp) => {
                write!(out, "d {stamp} ")?;
                out.extend_from_slice(path);
            }
        }
        out.push(b'\n');
    }
    out.extend_from_slice(b".\n");
    Ok(out)
}

fn main() -> io::Result<()> {
    let name = std::env::args().nth(1).expect("IMAGE");
    let new = format!("{name}.new");
    let mut tree = read(&fs::read(&name)?).expect("an image");
    let base = tree.values().map(Node::stamp).max().unwrap_or(0);
    tree.insert(b"/".to_vec(), Node::Dir(base + 1));
    tree.insert(b"/a".to_vec(), Node::File(base + 2, b"x\n".to_vec()));
    let text = write(&tree)?;
    println!("echo x > a");
    let mut file = File::create(&new)?;
    file.write_all(&text)?;
    file.sync_all()?;
    fs::rename(new, name)
}
