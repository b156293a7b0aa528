//! The declarations of a file of definitions (`*.antt`) or of a crate's source
//! (`lib.rt`), by their lines, as they stand there.

use std::ops::Range;

/// What stands in the name of an operator where its operands go, as in `◌and◌`.
pub const PLACE: char = '◌';

/// What a declaration is: the first three are of `*.antt`, the others of `lib.rt`.
#[derive(Clone, Copy, Debug, PartialEq, Eq)]
pub enum Form {
    Definition,
    Record,
    Data,
    Enum,
    Struct,
    Function,
}

/// A declaration. Lines are counted from 0.
#[derive(Debug)]
pub struct Declaration {
    pub name: String,
    pub form: Form,
    /// The fields of a record or struct, the cases of a data type or enum: they come
    /// along with it.
    pub parts: Vec<String>,
    /// The comment directly above it.
    pub comment: Range<usize>,
    /// With the attributes above it, `#[..]`, in `lib.rt`.
    pub lines: Range<usize>,
    /// The heading comment of its part of the file.
    pub section: Option<usize>,
    /// The anonymous module that it stands in.
    pub module: Option<usize>,
}

impl Declaration {
    /// Whether its parts are cases, which stand for themselves, and not fields.
    pub fn has_cases(&self) -> bool {
        matches!(self.form, Form::Data | Form::Enum)
    }

    pub fn has_fields(&self) -> bool {
        matches!(self.form, Form::Record | Form::Struct)
    }
}

/// An anonymous module, whose parameters all declarations in it have.
#[derive(Debug)]
pub struct Module {
    pub comment: Range<usize>,
    pub header: usize,
}

/// What a file takes from another: names, each as it is here and as it is there, or all
/// names behind an alias.
#[derive(Debug, Default)]
pub struct Use {
    pub path: String,
    pub names: Vec<(String, String)>,
    pub alias: Option<String>,
}

/// A file and what it declares.
#[derive(Debug, Default)]
pub struct Source {
    pub lines: Vec<String>,
    /// The comment that it begins with.
    pub head: Range<usize>,
    pub uses: Vec<Use>,
    pub modules: Vec<Module>,
    pub declarations: Vec<Declaration>,
}

/// How far a line is indented; nothing for a blank one.
pub fn indent(line: &str) -> Option<usize> {
    line.find(|c: char| c != ' ')
}

fn is_comment(line: &str) -> bool {
    let line = line.trim_start();
    line.starts_with("--") || line.starts_with("//")
}

fn is_section(line: &str) -> bool {
    line.trim_start().starts_with("-- ──")
}

/// The comment that the lines begin with.
fn head(lines: &[String]) -> Range<usize> {
    let end = lines.iter().position(|line| !is_comment(line));
    0..end.unwrap_or(lines.len())
}

fn is_attribute(line: &str) -> bool {
    line.starts_with("#[")
}

/// The first of the attributes directly above a line, or the line itself.
fn with_attributes(lines: &[String], line: usize) -> usize {
    let above = lines[..line].iter().rev();
    line - above.take_while(|line| is_attribute(line)).count()
}

/// The comment directly above a line.
fn comment_above(lines: &[String], line: usize) -> Range<usize> {
    let above = lines[..line].iter().rev();
    let long = above.take_while(|l| is_comment(l) && !is_section(l));
    line - long.count()..line
}

/// A line without the words that a declaration of `*.antt` begins with, and whether it
/// had any.
fn without_modifiers(line: &str) -> (bool, &str) {
    let mut rest = line.trim_start();
    let mut any = false;
    let words = ["unfoldable ", "abbrev ", "pub "];
    while let Some(behind) = words.iter().find_map(|word| rest.strip_prefix(word)) {
        (any, rest) = (true, behind);
    }
    (any, rest)
}

/// Where a sign stands outside all brackets, apart from other signs.
fn outside_brackets(line: &str, sign: &str) -> Option<usize> {
    let mut depth = 0;
    for (at, c) in line.char_indices() {
        match c {
            '(' | '{' => depth += 1,
            ')' | '}' => depth -= 1,
            ' ' if depth == 0 && line[at + 1..].starts_with(sign) => {
                let behind = &line[at + 1 + sign.len()..];
                if behind.is_empty() || behind.starts_with(' ') {
                    return Some(at);
                }
            }
            _ => {}
        }
    }
    None
}

/// The name and the form of what a line begins to declare, if it does.
fn signature(line: &str) -> Option<(String, Form)> {
    let (modified, rest) = without_modifiers(line);
    let word = |text: &str| text.split([' ', '{', '(']).next().map(str::to_string);
    if let Some(rest) = rest.strip_prefix("record ") {
        return Some((word(rest)?, Form::Record));
    }
    if let Some(rest) = rest.strip_prefix("data ") {
        return Some((word(rest)?, Form::Data));
    }
    let colon = outside_brackets(rest, ":");
    let equals = outside_brackets(rest, "=");
    let declares = match (colon, equals) {
        (Some(colon), Some(equals)) => colon < equals,
        (colon, _) => colon.is_some() || modified,
    };
    if declares {
        Some((word(rest)?, Form::Definition))
    } else {
        None
    }
}

/// The lines of a record or a data type, but for its header, in parts: one for each
/// field or case.
pub fn parts(lines: &[String]) -> Vec<&[String]> {
    let body = lines
        .iter()
        .position(|line| line.trim_end().ends_with("where"));
    let body = body.map_or(&lines[lines.len()..], |header| &lines[header + 1..]);
    units(body)
}

/// Lines in parts: each part begins at a line that is indented as the first one.
pub fn units(lines: &[String]) -> Vec<&[String]> {
    let code = |line: &String| !is_comment(line) && indent(line).is_some();
    let Some(base) = lines.iter().find(|line| code(line)).and_then(|l| indent(l)) else {
        return Vec::new();
    };
    let starts: Vec<usize> = (0..lines.len())
        .filter(|&at| code(&lines[at]) && indent(&lines[at]) == Some(base))
        .collect();
    let ends = starts.iter().skip(1).copied().chain([lines.len()]);
    let ranges = starts.iter().zip(ends);
    ranges.map(|(&start, end)| &lines[start..end]).collect()
}

/// The names that a field or a case begins with, before its colon.
pub fn names_before_colon(line: &str) -> Vec<String> {
    let (_, rest) = without_modifiers(line);
    let end = outside_brackets(rest, ":").unwrap_or(rest.len());
    rest[..end].split_whitespace().map(str::to_string).collect()
}

/// What a line takes from another file, if it begins with `use`: `PATH.{a, b as c}` or
/// `PATH as T`, and in `lib.rt` also `rules::Answer` or `rules::{Answer, Event}`.
fn parse_use(line: &str) -> Option<Use> {
    let line = line.trim().trim_end_matches(';');
    let line = line.strip_prefix("ghost ").unwrap_or(line);
    let rest = line.strip_prefix("use ")?;
    let mut taken = Use::default();
    if let Some((path, names)) = rest.split_once(".{").or(rest.split_once("::")) {
        let names = names.trim_matches(['{', '}']).split(',').map(str::trim);
        let renamed = names.map(|name| name.split_once(" as ").unwrap_or((name, name)));
        let names = renamed.map(|(there, here)| (here.to_string(), there.to_string()));
        (taken.path, taken.names) = (path.to_string(), names.collect());
    } else {
        let (path, alias) = rest.split_once(" as ")?;
        (taken.path, taken.alias) = (path.to_string(), Some(alias.to_string()));
    }
    Some(taken)
}

/// Reads a file of definitions.
pub fn parse_antt(text: &str) -> Source {
    let lines: Vec<String> = text.lines().map(str::to_string).collect();
    let mut source = Source {
        head: head(&lines),
        ..Source::default()
    };
    let (mut section, mut module) = (None, None);
    // Whether a line of code may belong to the declaration above; how far declarations
    // are indented.
    let (mut inside, mut base) = (false, 0);
    for (at, line) in lines.iter().enumerate() {
        let Some(here) = indent(line) else { continue };
        if here == 0 && base > 0 && !is_comment(line) {
            (module, base) = (None, 0);
        }
        if is_section(line) {
            section = Some(at);
        } else if is_comment(line) {
            continue;
        } else if let Some(taken) = parse_use(line) {
            source.uses.push(taken);
        } else if line.starts_with("module ") {
            let comment = comment_above(&lines, at);
            module = Some(source.modules.len());
            source.modules.push(Module {
                comment,
                header: at,
            });
            let next = lines[at + 1..].iter().find_map(|line| indent(line));
            (base, inside) = (next.unwrap_or(0), false);
        } else if here > base {
            extend(&mut source, inside, at);
        } else if line.trim_start().starts_with("infix") || line.starts_with("pub mod ") {
            inside = false;
        } else if let Some((name, form)) = signature(line) {
            source.declarations.push(Declaration {
                name,
                form,
                parts: Vec::new(),
                comment: comment_above(&lines, at),
                lines: at..at + 1,
                section,
                module,
            });
            inside = true;
        } else {
            extend(&mut source, inside, at);
        }
    }
    for declaration in &mut source.declarations {
        if declaration.form != Form::Definition {
            let each = parts(&lines[declaration.lines.clone()]).into_iter();
            declaration.parts = each.flat_map(|part| names_before_colon(&part[0])).collect();
        }
    }
    source.lines = lines;
    source
}

/// The line at `at` belongs to the last declaration.
fn extend(source: &mut Source, inside: bool, at: usize) {
    if let (true, Some(last)) = (inside, source.declarations.last_mut()) {
        last.lines.end = at + 1;
    }
}

/// Reads a crate's source: its enums, structs and functions.
pub fn parse_rt(text: &str) -> Source {
    let lines: Vec<String> = text.lines().map(str::to_string).collect();
    let mut source = Source {
        head: head(&lines),
        ..Source::default()
    };
    for (at, line) in lines.iter().enumerate() {
        if let Some(taken) = parse_use(line) {
            source.uses.push(taken);
            continue;
        }
        let public = line.strip_prefix("pub ").unwrap_or(line);
        let forms = [
            ("enum ", Form::Enum),
            ("struct ", Form::Struct),
            ("fn ", Form::Function),
        ];
        let found = forms.map(|(word, form)| Some((public.strip_prefix(word)?, form)));
        let Some((rest, form)) = found.into_iter().flatten().next() else {
            continue;
        };
        let name = rest.split([' ', '(', '{', '<']).next().unwrap_or(rest);
        let long = lines[at..].iter().position(|line| line.starts_with('}'));
        let end = long.map_or(lines.len(), |long| at + long + 1);
        let body = lines.get(at + 1..end - 1).unwrap_or_default().iter();
        let parts = body.filter(|line| form != Form::Function && !is_comment(line));
        let start = with_attributes(&lines, at);
        source.declarations.push(Declaration {
            name: name.to_string(),
            form,
            parts: parts.map(|line| variant_or_field(line)).collect(),
            comment: comment_above(&lines, start),
            lines: start..end,
            section: None,
            module: None,
        });
    }
    source.lines = lines;
    source
}

/// The name of a variant or of a field.
fn variant_or_field(line: &str) -> String {
    let line = line.trim();
    let line = line.strip_prefix("pub ").unwrap_or(line);
    let end = line.find(['(', ':', ',', ' ']).unwrap_or(line.len());
    line[..end].to_string()
}
