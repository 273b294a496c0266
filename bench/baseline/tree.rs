//! A tree whose nodes and children lie in vectors, and its lines as `ipg parse` prints them.

use std::io::{self, Write};

#[derive(Clone, Copy, PartialEq, Eq, Hash)]
pub enum Rule {
    S,
    L,
    A,
    B,
}

/// What makes a list of items, and of which kind they are.
#[derive(Clone, Copy)]
pub enum List {
    ForNumber,
    ManyNumber,
    ForA,
    ForB,
}

impl Rule {
    fn name(self) -> &'static str {
        match self {
            Rule::S => "S",
            Rule::L => "L",
            Rule::A => "A",
            Rule::B => "B",
        }
    }
}

impl List {
    fn name(self) -> &'static str {
        match self {
            List::ForNumber => "for U8",
            List::ManyNumber => "many U8",
            List::ForA => "for A",
            List::ForB => "for B",
        }
    }
}

#[derive(Clone, Copy)]
pub enum Kid {
    Node {
        at: u32,
    },
    Number {
        from: u32,
        val: u32,
    },
    Token {
        from: u32,
        to: u32,
    },
    /// An array or a repetition, whose items are children of their own.
    Items {
        list: List,
        first: u32,
        count: u32,
    },
}

/// A part that a rule has read, what it touches, and its children.
#[derive(Clone, Copy)]
pub struct Node {
    pub rule: Rule,
    pub part: (u32, u32),
    pub touch: (u32, u32),
    pub first: u32,
    pub count: u32,
}

#[derive(Default)]
pub struct Tree {
    nodes: Vec<Node>,
    kids: Vec<Kid>,
}

impl Tree {
    /// Stores children side by side: the first one's place, and how many there are.
    pub fn place(&mut self, kids: &[Kid]) -> (u32, u32) {
        let first = self.kids.len() as u32;
        self.kids.extend_from_slice(kids);
        (first, kids.len() as u32)
    }

    /// Stores a node, and tells its place.
    pub fn node(&mut self, node: Node) -> u32 {
        self.nodes.push(node);
        self.nodes.len() as u32 - 1
    }

    pub fn at(&self, at: u32) -> Node {
        self.nodes[at as usize]
    }

    /// The root and each child below it in the order of its lines, with its depth.
    fn walk(&self, root: u32, mut see: impl FnMut(u32, Kid)) {
        see(0, Kid::Node { at: root });
        let mut open = vec![self.below(Kid::Node { at: root })];
        while let Some((next, end)) = open.last_mut() {
            if next == end {
                open.pop();
                continue;
            }
            let kid = self.kids[*next as usize];
            *next += 1;
            see(open.len() as u32, kid);
            let (first, behind) = self.below(kid);
            if first < behind {
                open.push((first, behind));
            }
        }
    }

    /// The places of a child's own children.
    fn below(&self, kid: Kid) -> (u32, u32) {
        match kid {
            Kid::Node { at } => (self.at(at).first, self.at(at).first + self.at(at).count),
            Kid::Items { first, count, .. } => (first, first + count),
            _ => (0, 0),
        }
    }

    pub fn lines(&self, root: u32) -> u64 {
        let mut lines = 0;
        self.walk(root, |_, _| lines += 1);
        lines
    }

    pub fn print(&self, root: u32, input: &[u8]) -> io::Result<()> {
        let mut out = Page {
            text: Vec::with_capacity(1 << 17),
            result: Ok(()),
        };
        self.walk(root, |depth, kid| self.line(&mut out, input, depth, kid));
        out.flush();
        out.result
    }

    fn line(&self, out: &mut Page, input: &[u8], depth: u32, kid: Kid) {
        out.number(depth);
        match kid {
            Kid::Node { at } => {
                let node = self.at(at);
                out.word(" ")
                    .word(node.rule.name())
                    .field(" ", node.part.0)
                    .field(" ", node.part.1);
                out.field(" start=", node.touch.0)
                    .field(" end=", node.touch.1);
            }
            Kid::Number { from, val } => {
                out.field(" U8 ", from)
                    .field(" ", from + 1)
                    .field(" val=", val);
            }
            Kid::Token { from, to } => {
                out.field(" tok ", from)
                    .field(" ", to)
                    .word(" ")
                    .hex(&input[from as usize..to as usize]);
            }
            Kid::Items { list, count, .. } => {
                out.word(" ").word(list.name()).field(" ", count);
            }
        }
        out.word("\n");
        if out.text.len() >= 1 << 16 {
            out.flush();
        }
    }
}

/// What waits to be written.
struct Page {
    text: Vec<u8>,
    result: io::Result<()>,
}

impl Page {
    fn word(&mut self, word: &str) -> &mut Page {
        self.text.extend_from_slice(word.as_bytes());
        self
    }

    fn field(&mut self, name: &str, number: u32) -> &mut Page {
        self.word(name).number(number)
    }

    fn number(&mut self, mut number: u32) -> &mut Page {
        let mut digits = [0; 10];
        let mut at = digits.len();
        loop {
            at -= 1;
            digits[at] = b'0' + (number % 10) as u8;
            number /= 10;
            if number == 0 {
                break;
            }
        }
        self.text.extend_from_slice(&digits[at..]);
        self
    }

    fn hex(&mut self, bytes: &[u8]) -> &mut Page {
        for byte in bytes {
            self.text
                .extend_from_slice(format!("{byte:02x}").as_bytes());
        }
        self.word(if bytes.is_empty() { "-" } else { "" })
    }

    fn flush(&mut self) {
        let written = io::stdout().write_all(&self.text);
        if self.result.is_ok() {
            self.result = written;
        }
        self.text.clear();
    }
}
