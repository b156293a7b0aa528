//! Which names a declaration mentions, apart from those that it binds itself.

use crate::declarations::{names_before_colon, parts, units, Declaration, Form, Source, PLACE};
use std::mem;

/// A mention.
#[derive(Clone, Debug, PartialEq, Eq, PartialOrd, Ord)]
pub enum Mention {
    /// A name, to be found in the file or in what it uses.
    Name(String),
    /// A field of some record.
    Field(String),
    /// A word of a signature in `lib.rt`, which may be a type of the project.
    Word(String),
}

/// Words and signs of the language, and what every file has without using it.
const OWN: [&str; 17] = [
    ":",
    "=",
    "→",
    ",",
    ";",
    ".",
    "_",
    "|",
    "record",
    "in",
    "where",
    "Type",
    "⊥",
    "×",
    "ensures",
    "requires",
    "unfolding",
];

/// Splits code into brackets, commas and words; comments and quoted texts are left out.
fn tokens(code: &str) -> Vec<String> {
    let mut found = Vec::new();
    let mut word = String::new();
    for line in code.lines() {
        let mut signs = line.chars().peekable();
        while let Some(sign) = signs.next() {
            if word.is_empty() && sign == '-' && signs.peek() == Some(&'-') {
                break;
            }
            let single = matches!(sign, '(' | ')' | '{' | '}' | ';' | ',' | '"' | 'λ');
            if !single && !sign.is_whitespace() {
                word.push(sign);
                continue;
            }
            if !word.is_empty() {
                found.push(mem::take(&mut word));
            }
            if sign == '"' {
                skip_text(&mut signs);
            } else if single {
                found.push(sign.to_string());
            }
        }
        if !word.is_empty() {
            found.push(mem::take(&mut word));
        }
    }
    found
}

/// Goes behind the closing quote.
fn skip_text(signs: &mut impl Iterator<Item = char>) {
    while let Some(sign) = signs.next() {
        match sign {
            '\\' => drop(signs.next()),
            '"' => return,
            _ => {}
        }
    }
}

fn is_bracket(token: &str) -> bool {
    matches!(token, "(" | ")" | "{" | "}")
}

fn is_name(token: &str) -> bool {
    let number = token.chars().all(|c| c.is_ascii_digit());
    !is_bracket(token) && !OWN.contains(&token) && token != "λ" && !number
}

/// A pair of brackets that is open: what is bound within it, and what its end binds
/// around it, as `(a b : T)` does.
#[derive(Default)]
struct Bracket {
    bound: Vec<String>,
    binds: Vec<String>,
    /// It is that of `record { field = .. }`.
    labels: bool,
}

/// Goes through code and keeps which names are bound where it has come to.
#[derive(Default)]
struct Walk {
    /// What a name may begin with, before a dot, that is taken from a file as a whole.
    aliases: Vec<String>,
    brackets: Vec<Bracket>,
    found: Vec<Mention>,
}

impl Walk {
    fn bind(&mut self, name: &str) {
        if let Some(bracket) = self.brackets.last_mut() {
            bracket.bound.push(name.to_string());
        }
    }

    fn is_bound(&self, name: &str) -> bool {
        let mut bound = self.brackets.iter().flat_map(|bracket| &bracket.bound);
        bound.any(|other| other == name)
    }

    /// Code whose bindings end where it ends.
    fn apart(&mut self, code: impl FnOnce(&mut Self)) {
        self.brackets.push(Bracket::default());
        code(self);
        self.brackets.pop();
    }

    /// An expression or a type, or a sequence of parameters.
    fn expression(&mut self, tokens: &[String]) {
        // How many brackets are open where the parameters of a λ stand.
        let mut lambda = None;
        let mut at = 0;
        while at < tokens.len() {
            let token = tokens[at].as_str();
            let before = if at > 0 { tokens[at - 1].as_str() } else { "" };
            let behind = tokens.get(at + 1).map_or("", String::as_str);
            at += 1;
            let in_lambda = lambda == Some(self.brackets.len());
            match token {
                "(" | "{" => {
                    let binds = parameters(&tokens[at..]);
                    at += binds.len();
                    let labels = token == "{" && before == "record";
                    let bound = Vec::new();
                    self.brackets.push(Bracket {
                        bound,
                        binds,
                        labels,
                    });
                }
                ")" | "}" => {
                    let closed = self.brackets.pop().unwrap_or_default();
                    closed.binds.iter().for_each(|name| self.bind(name));
                }
                "λ" => lambda = Some(self.brackets.len()),
                "." => lambda = None,
                "let" => {
                    self.bind(behind);
                    at += 1;
                }
                _ if in_lambda && is_name(token) => {
                    self.bind(token.trim_end_matches('.'));
                    lambda = lambda.filter(|_| !token.ends_with('.'));
                }
                _ if token.starts_with('.') => {
                    token[1..].split('.').for_each(|field| self.field(field))
                }
                _ if behind == "=" && self.brackets.last().is_some_and(|b| b.labels) => {
                    self.field(token)
                }
                _ if is_name(token) => self.name(token),
                _ => {}
            }
        }
    }

    /// A name, with fields behind it or without: `h` and `txs` of `h.txs`. One that is
    /// taken by an alias has its dot.
    fn name(&mut self, token: &str) {
        let (name, fields) = token.split_once('.').unwrap_or((token, ""));
        let bound = self.is_bound(name);
        if !bound && self.aliases.iter().any(|alias| alias == name) {
            return self.found.push(Mention::Name(token.to_string()));
        }
        if !bound {
            self.found.push(Mention::Name(name.to_string()));
        }
        let fields = fields.split('.').filter(|field| !field.is_empty());
        fields.for_each(|field| self.field(field));
    }

    fn field(&mut self, name: &str) {
        self.found.push(Mention::Field(name.to_string()));
    }

    /// `name {a} : type`
    fn header(&mut self, tokens: &[String]) {
        let colon = tokens.iter().position(|token| token == ":");
        let (names, rest) = tokens.split_at(colon.unwrap_or(tokens.len()));
        for name in names.iter().filter(|name| is_name(name)) {
            self.bind(name);
        }
        self.expression(rest);
    }

    /// `name pattern .. = expression`: what is no case in a pattern is bound.
    fn clause(&mut self, own: &str, tokens: &[String], is_case: &dyn Fn(&str) -> bool) {
        let equals = tokens.iter().position(|token| token == "=");
        let (left, right) = tokens.split_at(equals.unwrap_or(0));
        let own_part = |name: &str| own == name || own.split(PLACE).any(|part| part == name);
        for name in left.iter().filter(|name| is_name(name) && !own_part(name)) {
            if is_case(name) {
                self.found.push(Mention::Name(name.clone()));
            } else {
                self.bind(name);
            }
        }
        self.expression(right);
    }
}

/// `a b` where the tokens begin with `a b :`
fn parameters(tokens: &[String]) -> Vec<String> {
    let names = tokens.iter().take_while(|token| is_name(token));
    let names: Vec<String> = names.cloned().collect();
    match tokens.get(names.len()) {
        Some(token) if token == ":" => names,
        _ => Vec::new(),
    }
}

fn joined(lines: &[String]) -> Vec<String> {
    tokens(&lines.join("\n"))
}

/// What a declaration mentions; `is_case` says of a name whether it is a case of a data
/// type or an enum.
pub fn mentions(
    source: &Source,
    declaration: &Declaration,
    is_case: &dyn Fn(&str) -> bool,
) -> Vec<Mention> {
    let lines = &source.lines[declaration.lines.clone()];
    let aliases = source.uses.iter().filter_map(|taken| taken.alias.clone());
    let mut walk = Walk {
        aliases: aliases.collect(),
        ..Walk::default()
    };
    walk.apart(|walk| {
        if let Some(module) = declaration.module {
            let header = &source.lines[source.modules[module].header];
            walk.expression(&tokens(header.trim_start_matches("module _")));
        }
        walk.apart(|walk| match declaration.form {
            Form::Definition => definition(walk, &declaration.name, lines, is_case),
            Form::Record | Form::Data => record_or_data(walk, declaration, lines),
            Form::Enum | Form::Struct => words(walk, lines),
            Form::Function => function(walk, lines),
        });
    });
    let mut found = walk.found;
    found.sort();
    found.dedup();
    found
}

fn definition(walk: &mut Walk, name: &str, lines: &[String], is_case: &dyn Fn(&str) -> bool) {
    for (number, unit) in units(lines).iter().enumerate() {
        let tokens = joined(unit);
        walk.apart(|walk| match number {
            0 => {
                let start = tokens.iter().position(|token| token == name);
                walk.header(&tokens[start.map_or(0, |start| start + 1)..]);
            }
            _ => walk.clause(name, &tokens, is_case),
        });
    }
}

fn record_or_data(walk: &mut Walk, declaration: &Declaration, lines: &[String]) {
    let each = parts(lines);
    let header = lines.len() - each.iter().map(|part| part.len()).sum::<usize>();
    let tokens = joined(&lines[..header]);
    let start = tokens.iter().position(|token| *token == declaration.name);
    walk.expression(&tokens[start.map_or(0, |start| start + 1)..]);
    for part in each {
        let tokens = joined(part);
        let colon = tokens.iter().position(|token| token == ":").unwrap_or(0);
        walk.apart(|walk| walk.expression(&tokens[colon..]));
        // The later fields of a record may name the earlier ones.
        if declaration.has_fields() {
            let names = names_before_colon(&part[0]);
            names.iter().for_each(|name| walk.bind(name));
        }
    }
}

/// The words of Rust-like code, and which of them a colon follows.
fn words_in(lines: &[String]) -> Vec<(String, bool)> {
    let code = lines
        .iter()
        .map(|line| line.split("//").next().unwrap_or(""));
    let code = code.collect::<Vec<_>>().join("\n").replace("::", " ");
    let is_part = |c: char| c.is_alphanumeric() || c == '_';
    let mut found = Vec::new();
    let mut rest = code.as_str();
    while let Some(start) = rest.find(is_part) {
        let behind = rest[start..].find(|c| !is_part(c));
        let end = behind.map_or(rest.len(), |long| start + long);
        let colon = rest[end..].starts_with(':');
        found.push((rest[start..end].to_string(), colon));
        rest = &rest[end..];
    }
    found
}

fn words(walk: &mut Walk, lines: &[String]) {
    let lines = without_attributes(lines);
    for (word, named) in words_in(lines) {
        if !named {
            walk.found.push(Mention::Word(word));
        }
    }
}

/// The lines of a declaration without the attributes that it begins with.
fn without_attributes(lines: &[String]) -> &[String] {
    let start = lines.iter().position(|line| !line.starts_with("#["));
    &lines[start.unwrap_or(lines.len())..]
}

/// The types of a function and its contract; not its body.
fn function(walk: &mut Walk, lines: &[String]) {
    let lines = without_attributes(lines);
    let body = lines.iter().position(|line| line.starts_with('{'));
    let lines = &lines[..body.unwrap_or(lines.len())];
    let is_contract = |line: &&String| {
        let line = line.trim_start();
        line.starts_with("ensures") || line.starts_with("requires")
    };
    let contract = lines.iter().position(|line| is_contract(&line));
    let (signature, contract) = lines.split_at(contract.unwrap_or(lines.len()));
    for (word, named) in words_in(signature) {
        match named {
            true => walk.bind(&word),
            false => walk.found.push(Mention::Word(word)),
        }
    }
    // What the function gives.
    walk.bind("result");
    walk.expression(&without_clause_names(joined(contract)));
}

/// A contract without the names of its clauses, as `low` of `ensures low { .. }`.
fn without_clause_names(tokens: Vec<String>) -> Vec<String> {
    let mut kept: Vec<String> = Vec::new();
    for (at, token) in tokens.iter().enumerate() {
        let before = kept.last().map_or("", String::as_str);
        let clause = matches!(before, "ensures" | "requires");
        let named = clause && tokens.get(at + 1).is_some_and(|next| next == "{");
        if !named {
            kept.push(token.clone());
        }
    }
    kept
}
