//! Builds a tree of a million tokens over `std::rc::Rc`, counts its tokens, walks through it with cursors and drops it: the program
//! `trees_speed` once more in Rust, with nodes, tokens, a cache and cursors of the same shape.
use std::fmt::Write;
use std::rc::Rc;
use std::time::Instant;

const SLOTS: usize = 4096;
const BLOCKS: u32 = 10_000;
const STATEMENTS: u32 = 10;

struct Token {
    kind: u16,
    fingerprint: u64,
    text: String,
}

struct Node {
    kind: u16,
    small_size: Option<u8>,
    text_len: u32,
    fingerprint: u64,
    children: Vec<Element>,
}

#[derive(Clone)]
enum Element {
    Node(Rc<Node>),
    Token(Rc<Token>),
}

impl Element {
    fn text_len(&self) -> u32 {
        match self {
            Element::Node(node) => node.text_len,
            Element::Token(token) => token.text.len() as u32,
        }
    }

    fn same(&self, other: &Element) -> bool {
        match (self, other) {
            (Element::Node(a), Element::Node(b)) => {
                a.kind == b.kind && same_elements(&a.children, &b.children)
            }
            (Element::Token(a), Element::Token(b)) => a.kind == b.kind && a.text == b.text,
            _ => false,
        }
    }
}

fn same_elements(a: &[Element], b: &[Element]) -> bool {
    a.len() == b.len() && a.iter().zip(b).all(|(a, b)| a.same(b))
}

fn mixed(hash: u64, part: u64) -> u64 {
    (hash.rotate_left(5) ^ part).wrapping_mul(0x517C_C1B7_2722_0A95)
}

fn token_fingerprint(kind: u16, text: &str) -> u64 {
    let start = mixed(0x9E37_79B9_7F4A_7C15, u64::from(kind));
    text.bytes().fold(start, |hash, byte| mixed(hash, u64::from(byte)))
}

fn node_fingerprint(kind: u16, children: &[Element]) -> u64 {
    if children.len() > 3 {
        return 0;
    }
    let start = mixed(0x9E37_79B9_7F4A_7C15, u64::from(kind));
    children.iter().fold(start, |hash, child| match child {
        Element::Node(node) => mixed(hash, node.fingerprint.rotate_left(17)),
        Element::Token(token) => mixed(hash, token.fingerprint),
    })
}

fn small_size(children: &[Element]) -> Option<u8> {
    if children.len() > 3 {
        return None;
    }
    let mut elements: u32 = 0;
    let mut bytes: u32 = 0;
    for child in children {
        let below = match child {
            Element::Node(node) => node.small_size?,
            Element::Token(_) => 0,
        };
        elements += 1 + u32::from(below);
        bytes = bytes.checked_add(child.text_len())?;
    }
    (elements <= 15 && bytes <= 63).then_some(elements as u8)
}

fn slot_of(fingerprint: u64) -> usize {
    (fingerprint >> 32) as usize % SLOTS
}

struct Builder {
    tokens: Vec<Option<Rc<Token>>>,
    nodes: Vec<Option<Rc<Node>>>,
    open_nodes: Vec<(u16, usize)>,
    done: Vec<Element>,
}

impl Builder {
    fn new() -> Builder {
        Builder {
            tokens: vec![None; SLOTS],
            nodes: vec![None; SLOTS],
            open_nodes: Vec::new(),
            done: Vec::new(),
        }
    }

    fn start_node(&mut self, kind: u16) {
        self.open_nodes.push((kind, self.done.len()));
    }

    fn token(&mut self, kind: u16, text: &str) {
        let fingerprint = token_fingerprint(kind, text);
        let slot = slot_of(fingerprint);
        if let Some(found) = &self.tokens[slot] {
            if found.kind == kind && found.text == text {
                self.done.push(Element::Token(found.clone()));
                return;
            }
        }
        let token = Rc::new(Token {
            kind,
            fingerprint,
            text: text.to_string(),
        });
        self.tokens[slot] = Some(token.clone());
        self.done.push(Element::Token(token));
    }

    fn finish_node(&mut self) {
        let (kind, first) = self.open_nodes.pop().expect("an open node");
        let children = &self.done[first..];
        let small_size = small_size(children);
        let fingerprint = node_fingerprint(kind, children);
        let slot = slot_of(fingerprint);
        if small_size.is_some() {
            if let Some(found) = &self.nodes[slot] {
                if found.kind == kind && same_elements(&found.children, children) {
                    let found = found.clone();
                    self.done.truncate(first);
                    self.done.push(Element::Node(found));
                    return;
                }
            }
        }
        let text_len = children.iter().map(Element::text_len).sum();
        let children = self.done.split_off(first);
        let node = Rc::new(Node {
            kind,
            small_size,
            text_len,
            fingerprint,
            children,
        });
        if small_size.is_some() {
            self.nodes[slot] = Some(node.clone());
        }
        self.done.push(Element::Node(node));
    }
}

fn name(builder: &mut Builder, kind: u16, text: &str) {
    builder.start_node(kind);
    builder.token(8, text);
    builder.finish_node();
}

fn statement(builder: &mut Builder, text: &str) {
    builder.start_node(3);
    builder.token(6, "let");
    builder.token(7, " ");
    name(builder, 4, text);
    builder.token(7, " ");
    builder.token(9, "=");
    builder.token(7, " ");
    name(builder, 5, text);
    builder.token(9, "+");
    builder.token(10, "1");
    builder.token(9, ";");
    builder.finish_node();
}

fn tree(names: u32) -> Element {
    let mut builder = Builder::new();
    let mut text = String::new();
    builder.start_node(1);
    for block in 0..BLOCKS {
        builder.start_node(2);
        for i in 0..STATEMENTS {
            let number = block * STATEMENTS + i;
            text.clear();
            let name = number.checked_rem(names).unwrap_or(number);
            write!(text, "name_{name}").expect("memory");
            statement(&mut builder, &text);
        }
        builder.finish_node();
    }
    builder.finish_node();
    builder.done.pop().expect("a tree")
}

fn tokens_below(element: &Element) -> u64 {
    match element {
        Element::Node(node) => node.children.iter().map(tokens_below).sum(),
        Element::Token(_) => 1,
    }
}

struct NodeData {
    green: Rc<Node>,
    offset: u32,
    spot: Option<(NodeCursor, u32)>,
}

type NodeCursor = Rc<NodeData>;

struct TokenCursor {
    parent: NodeCursor,
    index: u32,
    offset: u32,
    green: Rc<Token>,
}

enum Cursor {
    Node(NodeCursor),
    Token(TokenCursor),
}

fn child(parent: &NodeCursor, index: u32, offset: u32) -> Option<Cursor> {
    Some(match parent.green.children.get(index as usize)? {
        Element::Node(green) => Cursor::Node(Rc::new(NodeData {
            green: green.clone(),
            offset,
            spot: Some((parent.clone(), index)),
        })),
        Element::Token(green) => Cursor::Token(TokenCursor {
            parent: parent.clone(),
            index,
            offset,
            green: green.clone(),
        }),
    })
}

impl Cursor {
    fn same(&self) -> Cursor {
        match self {
            Cursor::Node(node) => Cursor::Node(node.clone()),
            Cursor::Token(token) => Cursor::Token(TokenCursor {
                parent: token.parent.clone(),
                index: token.index,
                offset: token.offset,
                green: token.green.clone(),
            }),
        }
    }

    fn parent(&self) -> Option<&NodeCursor> {
        match self {
            Cursor::Node(node) => node.spot.as_ref().map(|(parent, _)| parent),
            Cursor::Token(token) => Some(&token.parent),
        }
    }

    fn next_sibling(&self) -> Option<Cursor> {
        match self {
            Cursor::Node(node) => {
                let (parent, index) = node.spot.as_ref()?;
                child(parent, index + 1, node.offset + node.green.text_len)
            }
            Cursor::Token(token) => {
                let end = token.offset + token.green.text.len() as u32;
                child(&token.parent, token.index + 1, end)
            }
        }
    }
}

struct Step {
    cursor: Cursor,
    leaving: bool,
    depth: u64,
}

fn step_after(step: &Step) -> Option<Step> {
    if step.leaving {
        let above = step.depth.checked_sub(1)?;
        if let Some(cursor) = step.cursor.next_sibling() {
            return Some(Step { cursor, leaving: false, depth: step.depth });
        }
        let cursor = Cursor::Node(step.cursor.parent()?.clone());
        return Some(Step { cursor, leaving: true, depth: above });
    }
    if let Cursor::Node(node) = &step.cursor {
        if let Some(cursor) = child(node, 0, node.offset) {
            return Some(Step { cursor, leaving: false, depth: step.depth + 1 });
        }
    }
    Some(Step { cursor: step.cursor.same(), leaving: true, depth: step.depth })
}

struct Walk {
    next: Option<Step>,
}

impl Iterator for Walk {
    type Item = (Cursor, bool);

    fn next(&mut self) -> Option<(Cursor, bool)> {
        let step = self.next.take()?;
        self.next = step_after(&step);
        Some((step.cursor, step.leaving))
    }
}

fn walk(root: &NodeCursor) -> Walk {
    let cursor = Cursor::Node(root.clone());
    Walk { next: Some(Step { cursor, leaving: false, depth: 0 }) }
}

fn walk_and_drop(green: Rc<Node>) {
    let root = Rc::new(NodeData { green, offset: 0, spot: None });
    let start = Instant::now();
    let mut events: u64 = 0;
    let mut bytes: u64 = 0;
    for (cursor, leaving) in walk(&root) {
        if let (Cursor::Token(token), false) = (&cursor, leaving) {
            bytes += token.green.text.len() as u64;
        }
        events += 1;
    }
    let walked = start.elapsed().as_micros();
    let nodes = walk(&root)
        .filter(|(cursor, leaving)| !leaving && matches!(cursor, Cursor::Node(_)))
        .count();
    let counted = start.elapsed().as_micros() - walked;
    let start = Instant::now();
    drop(root);
    let dropped = start.elapsed().as_micros();
    eprintln!("{events} events in {walked}, {nodes} nodes in {counted}, dropped in {dropped} microseconds");
    println!("{events} {bytes} {nodes}");
}

fn measure(names: u32) {
    let start = Instant::now();
    let tree = tree(names);
    let built = start.elapsed().as_micros();
    let tokens = tokens_below(&tree);
    let counted = start.elapsed().as_micros() - built;
    eprintln!("{names} names: built in {built}, {tokens} tokens in {counted} microseconds");
    println!("{tokens}");
    if let Element::Node(green) = tree {
        walk_and_drop(green);
    }
}

fn main() {
    measure(100);
    measure(0);
}
