//! What a program takes at the least for the projects `cat SIZE` of `bench/build`: a plain one
//! without any proof, which knows nothing but them. It reads an image, takes a makefile's lines
//! apart at `:` and blanks, walks from `all`, tells by stamps what is to be made, takes each recipe
//! line apart at blanks as `cat FILE.. > FILE`, and writes the image. It has no variables,
//! patterns, quotes, fuel, checks, refusals, messages or second worker.
//!
//!     rustc --edition 2021 -O bench/floor.rs -o floor && bench/build ./floor --cat
use std::collections::{BTreeMap, HashMap};
use std::io::{self, BufWriter, Write};

enum Node {
    Dir(u64),
    File(u64, Vec<u8>),
}

impl Node {
    fn stamp(&self) -> u64 {
        match self {
            Node::Dir(stamp) | Node::File(stamp, _) => *stamp,
        }
    }
}

type Tree = BTreeMap<Vec<u8>, Node>;

#[derive(Default)]
struct Rule {
    needs: Vec<Vec<u8>>,
    recipe: Vec<Vec<u8>>,
}

type Rules = HashMap<Vec<u8>, Rule>;

const STEP: u64 = 1 << 20;

fn number(word: &[u8]) -> u64 {
    std::str::from_utf8(word).unwrap().parse().unwrap()
}

fn words(line: &[u8]) -> impl Iterator<Item = &[u8]> {
    line.split(|byte| *byte == b' ').filter(|word| !word.is_empty())
}

fn read_tree(text: &[u8]) -> Tree {
    let mut tree = Tree::new();
    let mut at = b"EMTREE 1\n".len();
    while text[at] != b'.' {
        let end = at + text[at..].iter().position(|byte| *byte == b'\n').unwrap();
        let head: Vec<&[u8]> = words(&text[at..end]).collect();
        at = end + 1;
        let stamp = number(head[1]);
        if head[0] == b"d" {
            tree.insert(head[2].to_vec(), Node::Dir(stamp));
        } else {
            let size = number(head[2]) as usize;
            tree.insert(head[3].to_vec(), Node::File(stamp, text[at..at + size].to_vec()));
            at += size + 1;
        }
    }
    tree
}

fn read_rules(makefile: &[u8]) -> Rules {
    let mut rules = Rules::new();
    let mut target = Vec::new();
    for line in makefile.split(|byte| *byte == b'\n') {
        if let Some(command) = line.strip_prefix(b"\t") {
            rules.entry(target.clone()).or_default().recipe.push(command.to_vec());
        } else if let Some(colon) = line.iter().position(|byte| *byte == b':') {
            target = line[..colon].to_vec();
            let needs = words(&line[colon + 1..]).map(<[u8]>::to_vec).collect();
            rules.entry(target.clone()).or_default().needs = needs;
        }
    }
    rules
}

fn walk<'a>(
    name: &'a [u8],
    rules: &'a Rules,
    seen: &mut HashMap<&'a [u8], usize>,
    order: &mut Vec<&'a [u8]>,
) {
    if seen.contains_key(name) {
        return;
    }
    seen.insert(name, 0);
    for need in rules.get(name).map_or(&[][..], |rule| &rule.needs) {
        walk(need, rules, seen, order);
    }
    seen.insert(name, order.len());
    order.push(name);
}

fn path(name: &[u8]) -> Vec<u8> {
    [b"/", name].concat()
}

fn stamp_of(tree: &Tree, name: &[u8]) -> Option<u64> {
    tree.get(&path(name)).map(Node::stamp)
}

fn is_due(tree: &Tree, target: &[u8], rule: &Rule) -> bool {
    let own = stamp_of(tree, target);
    let is_newer = |need: &Vec<u8>| stamp_of(tree, need).map_or(true, |stamp| Some(stamp) > own);
    own.is_none() || rule.needs.iter().any(is_newer)
}

fn run(tree: &mut Tree, stamp: u64, command: &[u8]) {
    let all: Vec<&[u8]> = words(command).collect();
    let arrow = all.iter().position(|word| *word == b">").unwrap();
    let mut body = Vec::new();
    for name in &all[1..arrow] {
        if let Some(Node::File(_, bytes)) = tree.get(&path(name)) {
            body.extend_from_slice(bytes);
        }
    }
    tree.insert(b"/".to_vec(), Node::Dir(stamp + 1));
    tree.insert(path(all[arrow + 1]), Node::File(stamp + 2, body));
}

fn write_tree(tree: &Tree) -> io::Result<Vec<u8>> {
    let mut text = b"EMTREE 1\n".to_vec();
    for (path, node) in tree {
        match node {
            Node::Dir(stamp) => write!(text, "d {stamp} ")?,
            Node::File(stamp, body) => write!(text, "f {stamp} {} ", body.len())?,
        }
        text.extend_from_slice(path);
        text.push(b'\n');
        if let Node::File(_, body) = node {
            text.extend_from_slice(body);
            text.push(b'\n');
        }
    }
    text.extend_from_slice(b".\n");
    Ok(text)
}

fn main() -> io::Result<()> {
    let image = std::env::args().nth(2).expect("floor -I IMAGE");
    let mut tree = read_tree(&std::fs::read(&image)?);
    let base = tree.values().map(Node::stamp).max().unwrap();
    let rules = match &tree[&b"/Makefile"[..]] {
        Node::File(_, bytes) => read_rules(bytes),
        Node::Dir(_) => panic!("/Makefile is a directory"),
    };
    let mut order = Vec::new();
    walk(b"all", &rules, &mut HashMap::new(), &mut order);
    let mut out = BufWriter::new(io::stdout());
    for (job, target) in order.into_iter().enumerate() {
        let Some(rule) = rules.get(target) else { continue };
        if !is_due(&tree, target, rule) {
            continue;
        }
        for command in &rule.recipe {
            out.write_all(command)?;
            out.write_all(b"\n")?;
            run(&mut tree, base + job as u64 * STEP, command);
        }
    }
    out.flush()?;
    std::fs::write(&image, write_tree(&tree)?)
}
