// Plain Rust that reads the texts of `tool_rules` into the same types: tokens first, then recursive descent.
// It checks no limit and knows no exact place of a fault. `peer rules|sum|brackets SIZE RUNS`.
#![allow(dead_code)]

#[derive(Clone, Copy)]
struct Span(u32, u32);

enum Kind {
    Name(Vec<u8>),
    Word(Vec<u8>),
    Number(i64),
    Text(Vec<u8>),
    Symbol(Vec<u8>),
}

struct Token {
    kind: Kind,
    span: Span,
}

struct Ident(Vec<u8>, Span);

enum Expr {
    Num(i64),
    Eoi,
    Id(Ident),
    Part(Ident, Field),
    Item(Ident, Box<Expr>, Field),
    Group(Box<Expr>),
    Neg(Box<Expr>),
    Not(Box<Expr>),
    Two(u8, Box<Expr>, Box<Expr>),
    Cond(Box<Expr>, Box<Expr>, Box<Expr>),
}

enum Field {
    Id(Ident),
    Start,
    End,
}

enum Place {
    Open,
    Length(Expr),
    Ends(Expr, Expr),
}

enum What {
    Text(Vec<u8>),
    Call(Vec<u8>),
}

struct Slot(What, Span, Place);

enum Term {
    Slot(Slot),
    Set(Ident, Expr),
    Test(Span, Expr),
    Repeat(Ident, Expr, Expr, Ident, Expr, Expr),
    Many(Span, Ident, Place),
    Pick(Span, Vec<(Expr, Slot)>, Slot),
}

struct Alt(Vec<Term>, Vec<Rule>);

struct Rule(Ident, Vec<Alt>);

const RESERVED: [&str; 12] = [
    "for", "to", "do", "switch", "case", "else", "where", "start", "end", "EOI", "tok", "many",
];

fn tokens(text: &[u8]) -> Option<Vec<Token>> {
    let mut found = Vec::new();
    let mut at = 0;
    while at < text.len() {
        let from = at;
        let b = text[at];
        let kind = match b {
            b' ' | b'\t' | b'\n' | b'\r' => {
                at += 1;
                continue;
            }
            b'#' => {
                while at < text.len() && text[at] != b'\n' {
                    at += 1;
                }
                continue;
            }
            b'a'..=b'z' | b'A'..=b'Z' | b'_' => {
                while at < text.len() && (text[at].is_ascii_alphanumeric() || text[at] == b'_') {
                    at += 1;
                }
                let name = text[from..at].to_vec();
                if RESERVED.iter().any(|word| word.as_bytes() == name) {
                    Kind::Word(name)
                } else {
                    Kind::Name(name)
                }
            }
            b'0'..=b'9' => number(text, &mut at)?,
            b'"' => string(text, &mut at)?,
            _ => {
                let two = text.get(at..at + 2).unwrap_or(b"");
                let width = match two {
                    b"->" | b"<<" | b">>" | b"==" | b"!=" | b"<=" | b">=" | b"&&" | b"||" => 2,
                    _ => 1,
                };
                at += width;
                Kind::Symbol(text[from..at].to_vec())
            }
        };
        found.push(Token {
            kind,
            span: Span(from as u32, at as u32),
        });
    }
    Some(found)
}

fn number(text: &[u8], at: &mut usize) -> Option<Kind> {
    let mut value: i64 = 0;
    let hexadecimal = text[*at] == b'0'
        && text.get(*at + 1) == Some(&b'x')
        && text.get(*at + 2).is_some_and(|b| b.is_ascii_hexdigit());
    let base = if hexadecimal {
        *at += 2;
        16
    } else {
        10
    };
    while let Some(digit) = text.get(*at).and_then(|b| (*b as char).to_digit(base)) {
        value = value.checked_mul(base as i64)?.checked_add(digit as i64)?;
        *at += 1;
    }
    Some(Kind::Number(value))
}

fn string(text: &[u8], at: &mut usize) -> Option<Kind> {
    let mut bytes = Vec::new();
    *at += 1;
    loop {
        match *text.get(*at)? {
            b'"' => {
                *at += 1;
                return Some(Kind::Text(bytes));
            }
            b'\\' => match *text.get(*at + 1)? {
                b @ (b'"' | b'\\') => {
                    bytes.push(b);
                    *at += 2;
                }
                b'x' => {
                    let high = (*text.get(*at + 2)? as char).to_digit(16)?;
                    let low = (*text.get(*at + 3)? as char).to_digit(16)?;
                    bytes.push((high * 16 + low) as u8);
                    *at += 4;
                }
                _ => return None,
            },
            b @ 0x20..=0x7e => {
                bytes.push(b);
                *at += 1;
            }
            _ => return None,
        }
    }
}

struct Reader<'a> {
    tokens: &'a [Token],
    at: usize,
}

impl Reader<'_> {
    fn symbol(&self) -> &[u8] {
        match self.tokens.get(self.at) {
            Some(Token { kind: Kind::Symbol(s), .. }) => s,
            _ => b"",
        }
    }

    fn word(&self) -> &[u8] {
        match self.tokens.get(self.at) {
            Some(Token { kind: Kind::Word(s), .. }) => s,
            _ => b"",
        }
    }

    fn take(&mut self, symbol: &[u8]) -> Option<()> {
        if self.symbol() == symbol {
            self.at += 1;
            Some(())
        } else {
            None
        }
    }

    fn take_word(&mut self, word: &[u8]) -> Option<Span> {
        if self.word() == word {
            self.at += 1;
            Some(self.tokens[self.at - 1].span)
        } else {
            None
        }
    }

    fn name(&mut self) -> Option<Ident> {
        match self.tokens.get(self.at) {
            Some(Token { kind: Kind::Name(name), span }) => {
                self.at += 1;
                Some(Ident(name.clone(), *span))
            }
            _ => None,
        }
    }

    fn rule(&mut self, global: bool) -> Option<Rule> {
        let name = self.name()?;
        self.take(b"->")?;
        let mut alts = vec![self.alt(global)?];
        while self.take(b"/").is_some() {
            alts.push(self.alt(global)?);
        }
        self.take(b";")?;
        Some(Rule(name, alts))
    }

    fn alt(&mut self, global: bool) -> Option<Alt> {
        let mut terms = vec![self.term()?];
        while !matches!(self.symbol(), b"/" | b";") && self.word() != b"where" {
            terms.push(self.term()?);
        }
        let mut locals = Vec::new();
        if global && self.take_word(b"where").is_some() {
            self.take(b"{")?;
            while self.symbol() != b"}" {
                locals.push(self.rule(false)?);
            }
            self.take(b"}")?;
        }
        Some(Alt(terms, locals))
    }

    fn term(&mut self) -> Option<Term> {
        if self.take(b"{").is_some() {
            let name = self.name()?;
            self.take(b"=")?;
            let value = self.expr()?;
            self.take(b"}")?;
            return Some(Term::Set(name, value));
        }
        if self.symbol() == b"?" {
            let span = self.tokens[self.at].span;
            self.at += 1;
            self.take(b"(")?;
            let cond = self.expr()?;
            self.take(b")")?;
            return Some(Term::Test(span, cond));
        }
        if self.take_word(b"for").is_some() {
            return self.repeat();
        }
        if let Some(span) = self.take_word(b"many") {
            let item = self.name()?;
            let place = self.place()?;
            return Some(Term::Many(span, item, place));
        }
        if let Some(span) = self.take_word(b"switch") {
            self.take(b"{")?;
            let mut cases = Vec::new();
            while self.take_word(b"case").is_some() {
                self.take(b"(")?;
                let cond = self.expr()?;
                self.take(b")")?;
                cases.push((cond, self.slot()?));
            }
            self.take_word(b"else")?;
            let other = self.slot()?;
            self.take(b"}")?;
            return Some(Term::Pick(span, cases, other));
        }
        Some(Term::Slot(self.slot()?))
    }

    fn repeat(&mut self) -> Option<Term> {
        let var = self.name()?;
        self.take(b"=")?;
        let first = self.expr()?;
        self.take_word(b"to")?;
        let last = self.expr()?;
        self.take_word(b"do")?;
        let item = self.name()?;
        self.take(b"[")?;
        let from = self.expr()?;
        self.take(b",")?;
        let to = self.expr()?;
        self.take(b"]")?;
        Some(Term::Repeat(var, first, last, item, from, to))
    }

    fn slot(&mut self) -> Option<Slot> {
        let token = self.tokens.get(self.at)?;
        let what = match &token.kind {
            Kind::Text(bytes) => What::Text(bytes.clone()),
            Kind::Name(name) => What::Call(name.clone()),
            _ => return None,
        };
        self.at += 1;
        Some(Slot(what, token.span, self.place()?))
    }

    fn place(&mut self) -> Option<Place> {
        if self.take(b"[").is_none() {
            return Some(Place::Open);
        }
        let left = self.expr()?;
        if self.take(b",").is_some() {
            let right = self.expr()?;
            self.take(b"]")?;
            return Some(Place::Ends(left, right));
        }
        self.take(b"]")?;
        Some(Place::Length(left))
    }

    fn expr(&mut self) -> Option<Expr> {
        let cond = self.infix(1)?;
        if self.take(b"?").is_none() {
            return Some(cond);
        }
        let yes = self.expr()?;
        self.take(b":")?;
        let no = self.expr()?;
        Some(Expr::Cond(Box::new(cond), Box::new(yes), Box::new(no)))
    }

    fn operator(&self) -> Option<(u8, u8)> {
        Some(match self.symbol() {
            b"||" => (1, 0),
            b"&&" => (2, 1),
            b"==" => (3, 2),
            b"!=" => (3, 3),
            b"<" => (3, 4),
            b"<=" => (3, 5),
            b">" => (3, 6),
            b">=" => (3, 7),
            b"|" => (4, 8),
            b"^" => (5, 9),
            b"&" => (6, 10),
            b"<<" => (7, 11),
            b">>" => (7, 12),
            b"+" => (8, 13),
            b"-" => (8, 14),
            b"*" => (9, 15),
            b"/" => (9, 16),
            b"%" => (9, 17),
            _ => return None,
        })
    }

    fn infix(&mut self, level: u8) -> Option<Expr> {
        let mut left = self.operand()?;
        while let Some((own, op)) = self.operator() {
            if own < level {
                break;
            }
            self.at += 1;
            let right = self.infix(own + 1)?;
            left = Expr::Two(op, Box::new(left), Box::new(right));
        }
        Some(left)
    }

    fn operand(&mut self) -> Option<Expr> {
        match self.symbol() {
            b"-" => {
                self.at += 1;
                return Some(Expr::Neg(Box::new(self.operand()?)));
            }
            b"!" => {
                self.at += 1;
                return Some(Expr::Not(Box::new(self.operand()?)));
            }
            b"(" => {
                self.at += 1;
                let inner = self.expr()?;
                self.take(b")")?;
                return Some(Expr::Group(Box::new(inner)));
            }
            _ => {}
        }
        if self.take_word(b"EOI").is_some() {
            return Some(Expr::Eoi);
        }
        if let Some(Token { kind: Kind::Number(n), .. }) = self.tokens.get(self.at) {
            self.at += 1;
            return Some(Expr::Num(*n));
        }
        let name = self.name()?;
        if self.take(b".").is_some() {
            return Some(Expr::Part(name, self.field()?));
        }
        if self.take(b"(").is_some() {
            let index = self.expr()?;
            self.take(b")")?;
            self.take(b".")?;
            return Some(Expr::Item(name, Box::new(index), self.field()?));
        }
        Some(Expr::Id(name))
    }

    fn field(&mut self) -> Option<Field> {
        if self.take_word(b"start").is_some() {
            return Some(Field::Start);
        }
        if self.take_word(b"end").is_some() {
            return Some(Field::End);
        }
        Some(Field::Id(self.name()?))
    }
}

fn read(text: &[u8]) -> Option<Vec<Rule>> {
    let found = tokens(text)?;
    let mut reader = Reader { tokens: &found, at: 0 };
    let mut rules = vec![reader.rule(true)?];
    while reader.at < found.len() {
        rules.push(reader.rule(true)?);
    }
    Some(rules)
}

const ALT: &str = "{n = A.v + 1} ?(n > 0x2 && A.v != 7) U8[0, 1] A[n, EOI - 4] \"abcd\"[EOI - 4, EOI] \
    switch {case (A.v == 1) B[0, n] case (A.v == 2) C[n, EOI] else D} for i = 0 to A.v do E[4 * i, 4 * i + 4]";

fn made(kind: &str, size: usize) -> String {
    match kind {
        "rules" => format!("Rule -> {ALT}{} ;\n", format!(" / {ALT}").repeat(4)).repeat(size),
        "sum" => {
            let mut group = String::from("1");
            for _ in 0..5 {
                group = format!("({group}{})", format!("+{group}").repeat(7));
            }
            format!("S -> ?(0{}) ;", format!("+{group}").repeat(size))
        }
        _ => panic!("no such text"),
    }
}

fn main() {
    let args: Vec<String> = std::env::args().collect();
    let text = made(&args[1], args[2].parse().unwrap());
    let mut rules = 0;
    for _ in 0..args[3].parse().unwrap() {
        rules = read(text.as_bytes()).map_or(0, |rules| rules.len());
    }
    println!("bytes {} rules {rules}", text.len());
}
