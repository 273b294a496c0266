//! Reads a file by one of a few grammars, by hand, into a tree in memory, and prints that as `ipg parse` does:
//! `baseline KIND FILE [lines]`, where `lines` prints how many lines there are and no more. `machine.sh` has the grammars.

mod tree;

use std::collections::HashMap;
use tree::{Kid, List, Node, Rule, Tree};

/// Room for a call on each of four million bytes.
const STACK: usize = 4 << 30;

/// The answers of calls: the rule, and the part that it read.
type Memo = HashMap<(Rule, u32, u32), Option<u32>>;

struct Parser<'a> {
    input: &'a [u8],
    tree: Tree,
    memo: Option<Memo>,
}

impl Parser<'_> {
    fn end(&self) -> u32 {
        self.input.len() as u32
    }

    /// `U8` at that place, on a part up to `to`.
    fn number(&self, from: u32, to: u32) -> Option<Kid> {
        let val = *self.input[..to as usize].get(from as usize)?;
        Some(Kid::Number {
            from,
            val: u32::from(val),
        })
    }

    /// A node on the part, and its children.
    fn close(&mut self, rule: Rule, part: (u32, u32), touch: (u32, u32), kids: &[Kid]) -> u32 {
        let (first, count) = self.tree.place(kids);
        self.tree.node(Node {
            rule,
            part,
            touch,
            first,
            count,
        })
    }

    /// What a rule answers on a part, which is looked up first where answers are remembered.
    fn call(
        &mut self,
        rule: Rule,
        part: (u32, u32),
        body: impl Fn(&mut Self, u32, u32) -> Option<u32>,
    ) -> Option<u32> {
        let key = (rule, part.0, part.1);
        if let Some(known) = self.memo.as_ref().and_then(|memo| memo.get(&key)) {
            return *known;
        }
        let answer = body(self, part.0, part.1);
        if let Some(memo) = &mut self.memo {
            memo.insert(key, answer);
        }
        answer
    }

    /// The root: items of one byte, in an array or a repetition.
    fn items(&mut self, list: List, item: impl Fn(&mut Self, u32) -> Option<Kid>) -> Option<u32> {
        let mut items = Vec::new();
        for from in 0..self.end() {
            items.push(item(self, from)?);
        }
        let (first, count) = self.tree.place(&items);
        let part = (0, self.end());
        let touch = if count == 0 { (part.1, part.0) } else { part };
        Some(self.close(Rule::S, part, touch, &[Kid::Items { list, first, count }]))
    }

    /// `U8` alone
    fn byte(&mut self, rule: Rule, from: u32, to: u32) -> Option<u32> {
        let kid = self.number(from, to)?;
        Some(self.close(rule, (from, to), (from, from + 1), &[kid]))
    }

    /// `L -> U8 L / "" ;`
    fn list(&mut self, from: u32, to: u32) -> Option<u32> {
        if let Some(kid) = self.number(from, to)
            && let Some(at) = self.call(Rule::L, (from + 1, to), Self::list)
        {
            let rest = self.tree.at(at).touch;
            let touch = (from.min(rest.0), rest.1.max(from + 1));
            return Some(self.close(Rule::L, (from, to), touch, &[kid, Kid::Node { at }]));
        }
        Some(self.close(
            Rule::L,
            (from, to),
            (to, from),
            &[Kid::Token { from, to: from }],
        ))
    }

    fn one(&mut self, from: u32) -> Option<Kid> {
        self.number(from, from + 1)
    }

    fn called(&mut self, from: u32) -> Option<Kid> {
        let at = self.call(Rule::B, (from, from + 1), |p, from, to| {
            p.byte(Rule::B, from, to)
        })?;
        Some(Kid::Node { at })
    }

    fn behind(&mut self, from: u32) -> Option<Kid> {
        let at = self.call(Rule::A, (from, self.end()), |p, from, to| {
            p.byte(Rule::A, from, to)
        })?;
        Some(Kid::Node { at })
    }

    fn root(&mut self, kind: &str) -> Option<u32> {
        match kind {
            "array" => self.items(List::ForNumber, Self::one),
            "many" => self.items(List::ManyNumber, Self::one),
            "calls" => self.items(List::ForB, Self::called),
            "behind" => self.items(List::ForA, Self::behind),
            "list" => self.call(Rule::L, (0, self.end()), Self::list),
            _ => panic!("no such kind: {kind}"),
        }
    }
}

fn run(words: &[String]) {
    let input = std::fs::read(&words[2]).expect("the file can't be read");
    let (kind, memo) = match words[1].strip_suffix("-memo") {
        Some(kind) => (kind, Some(Memo::new())),
        None => (words[1].as_str(), None),
    };
    let mut parser = Parser {
        input: &input,
        tree: Tree::default(),
        memo,
    };
    match parser.root(kind) {
        None => println!("no parse"),
        Some(root) if words.len() > 3 => println!("{} lines", parser.tree.lines(root)),
        Some(root) => parser
            .tree
            .print(root, &input)
            .expect("the output can't be written"),
    }
}

fn main() {
    let words: Vec<String> = std::env::args().collect();
    let made = std::thread::Builder::new()
        .stack_size(STACK)
        .spawn(move || run(&words));
    if made.expect("no room for the stack").join().is_err() {
        std::process::exit(1);
    }
}
