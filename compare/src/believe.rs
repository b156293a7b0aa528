//! What a reader has to believe, in one piece: the conditions and the definitions that
//! they are made of, as `docs/believe.txt` lists them, printed as they stand in the
//! project's files; and whether that text is closed.

use crate::declarations::{parse_antt, parse_rt, Declaration, Source, PLACE};
use crate::mentions::{mentions, Mention};
use std::collections::{BTreeMap, BTreeSet};
use std::fs;
use std::io;
use std::path::Path;

/// The language's own fields: what a lent slice holds, before a call and behind it; the
/// slice itself before the call, where its first byte is, and the two parts of such a place.
const OWN_FIELDS: [&str; 7] = ["now", "old", "new", "entry", "ref_ptr", "0", "1"];

/// The crate that the language's library is.
const LIBRARY: &str = "std";

/// A declaration by its file and its number there.
type Id<'a> = (&'a str, usize);

/// The project's files, by their paths below `crates`.
#[derive(Default)]
pub struct Project {
    pub sources: BTreeMap<String, Source>,
}

/// Whether a word stands for a name: `and` does for `◌and◌`.
fn stands_for(word: &str, name: &str) -> bool {
    word == name || name.contains(PLACE) && name.split(PLACE).any(|part| part == word)
}

/// What a name means in a file.
enum Meaning<'a> {
    Declared {
        id: Id<'a>,
        is_case: bool,
    },
    /// Of the language's library.
    Library,
    Unknown,
}

impl Project {
    /// Reads all definitions of the project at `root`, and what its crates declare.
    pub fn load(root: &Path) -> io::Result<Self> {
        let mut project = Self::default();
        for krate in fs::read_dir(root.join("crates"))? {
            let krate = krate?;
            let name = krate.file_name().to_string_lossy().into_owned();
            let code = krate.path().join("src/lib.rt");
            if code.is_file() {
                project.add(&format!("{name}/src/lib.rt"), &fs::read_to_string(code)?);
            }
            let specs = krate.path().join("specs");
            if !specs.is_dir() {
                continue;
            }
            for file in fs::read_dir(specs)? {
                let file = file?;
                let path = format!("{name}/specs/{}", file.file_name().to_string_lossy());
                if path.ends_with(".antt") {
                    project.add(&path, &fs::read_to_string(file.path())?);
                }
            }
        }
        Ok(project)
    }

    pub fn add(&mut self, path: &str, text: &str) {
        let source = match path.ends_with(".rt") {
            true => parse_rt(text),
            false => parse_antt(text),
        };
        self.sources.insert(path.to_string(), source);
    }

    fn has_crate(&self, name: &str) -> bool {
        let folder = format!("{name}/");
        self.sources.keys().any(|path| path.starts_with(&folder))
    }

    fn declaration(&self, id: Id) -> &Declaration {
        &self.sources[id.0].declarations[id.1]
    }

    fn name(&self, id: Id) -> String {
        format!("{} ({})", self.declaration(id).name, id.0)
    }

    /// The declaration of a file that has this name, or a case of this name.
    fn in_file(&self, path: &str, name: &str) -> Option<Meaning<'_>> {
        let (path, source) = self.sources.get_key_value(path)?;
        let is = |declared: &str| stands_for(name, declared);
        let found = |test: &dyn Fn(&Declaration) -> bool, is_case| {
            let number = source.declarations.iter().position(test)?;
            let id = (path.as_str(), number);
            Some(Meaning::Declared { id, is_case })
        };
        found(&|declaration| is(&declaration.name), false).or_else(|| {
            let has = |declaration: &Declaration| declaration.parts.iter().any(|part| is(part));
            found(
                &|declaration| declaration.has_cases() && has(declaration),
                true,
            )
        })
    }

    /// What a name means that is taken from another file, by the path of the `use`.
    fn by_use(&self, path: &str, there: &str) -> Meaning<'_> {
        let found = match path.strip_prefix("Rattle.") {
            Some(path) if path.split('.').next() == Some(LIBRARY) => return Meaning::Library,
            Some(path) => self.in_specs(path, there),
            None if path.contains('.') => return Meaning::Library,
            // `use rules::Answer;`
            None => self.in_file(&format!("{path}/src/lib.rt"), there),
        };
        found.unwrap_or(Meaning::Unknown)
    }

    /// .. of a path such as `rules.specs.History`, or `rules.specs.declared.Event` for what
    /// the crate's source declares.
    fn in_specs(&self, path: &str, there: &str) -> Option<Meaning<'_>> {
        let (krate, file) = path.split_once(".specs.")?;
        let Some(declared) = file.strip_prefix("declared.") else {
            return self.in_file(&format!("{krate}/specs/{file}.antt"), there);
        };
        let name = declared.trim_end_matches(".TheVariants");
        match self.in_file(&format!("{krate}/src/lib.rt"), name)? {
            Meaning::Declared { id, .. } => Some(Meaning::Declared {
                id,
                is_case: name != declared,
            }),
            other => Some(other),
        }
    }

    fn meaning(&self, path: &str, name: &str) -> Meaning<'_> {
        if let Some(meaning) = self.in_file(path, name) {
            return meaning;
        }
        for taken in &self.sources[path].uses {
            let mut names = taken.names.iter();
            if let Some((_, there)) = names.find(|(here, _)| stands_for(name, here)) {
                return self.by_use(&taken.path, there);
            }
            let behind = taken.alias.as_ref().and_then(|alias| {
                let behind = name.strip_prefix(alias.as_str())?;
                behind.strip_prefix('.')
            });
            if let Some(there) = behind {
                return self.by_use(&taken.path, there);
            }
        }
        Meaning::Unknown
    }

    /// What a declaration mentions.
    fn mentions(&self, id: Id) -> Vec<Mention> {
        let is_case = |name: &str| match self.meaning(id.0, name) {
            Meaning::Declared { is_case, .. } => is_case,
            Meaning::Library => true,
            Meaning::Unknown => false,
        };
        mentions(&self.sources[id.0], self.declaration(id), &is_case)
    }
}

/// A name of the list: with a star it is a root, to be believed for its own sake.
pub struct Listed {
    pub name: String,
    pub is_root: bool,
}

/// A file of the list and what is printed of it.
pub struct Entry {
    pub path: String,
    pub names: Vec<Listed>,
}

/// A heading of the list and what stands under it.
pub struct Chapter {
    pub heading: String,
    pub entries: Vec<Entry>,
}

/// Reads the list: a line `# heading`, a line with a file and names, a line that is
/// indented with more names of that file; a line `-- ..` is a remark.
pub fn parse_list(text: &str) -> Result<Vec<Chapter>, String> {
    let mut chapters: Vec<Chapter> = Vec::new();
    for (number, line) in text.lines().enumerate() {
        let wrong = |what: &str| format!("the list, line {}: {what}", number + 1);
        if line.trim().is_empty() || line.starts_with("--") {
            continue;
        }
        if let Some(heading) = line.strip_prefix("# ") {
            let (heading, entries) = (heading.trim().to_string(), Vec::new());
            chapters.push(Chapter { heading, entries });
            continue;
        }
        let chapter = chapters.last_mut().ok_or(wrong("no heading above"))?;
        let mut words = line.split_whitespace();
        if !line.starts_with(' ') {
            let path = words.next().unwrap_or_default().to_string();
            let names = Vec::new();
            chapter.entries.push(Entry { path, names });
        }
        let entry = chapter.entries.last_mut().ok_or(wrong("no file above"))?;
        for word in words {
            let name = word.strip_prefix('*').unwrap_or(word);
            let is_root = name != word;
            let name = name.to_string();
            entry.names.push(Listed { name, is_root });
        }
    }
    Ok(chapters)
}

/// The text, by chapters, each as its lines; and what is wrong with it.
pub struct Text {
    pub chapters: Vec<(String, Vec<String>)>,
    pub faults: Vec<String>,
    /// The names that are printed.
    pub names: BTreeSet<String>,
}

impl Text {
    /// All lines, with an empty one between chapters.
    pub fn lines(&self) -> Vec<&str> {
        let mut all = Vec::new();
        for (number, (_, lines)) in self.chapters.iter().enumerate() {
            if number > 0 {
                all.push("");
            }
            all.extend(lines.iter().map(String::as_str));
        }
        all
    }
}

/// What has been printed before: a comment is printed once, the heading of a section and
/// the header of a module where they are entered.
#[derive(Default)]
struct Shown<'a> {
    comments: BTreeSet<(&'a str, usize)>,
    /// The section and the module that were printed last.
    section: Option<(&'a str, usize)>,
    module: Option<(&'a str, usize)>,
}

impl<'a> Shown<'a> {
    /// Lines of a comment, unless they were printed before.
    fn comment(
        &mut self,
        path: &'a str,
        source: &Source,
        at: std::ops::Range<usize>,
    ) -> Vec<String> {
        let at = at.filter(|&line| self.comments.insert((path, line)));
        at.map(|line| source.lines[line].clone()).collect()
    }

    /// A declaration with its section, its module and its comment, each part behind an
    /// empty line.
    fn declaration(&mut self, path: &'a str, source: &Source, number: usize) -> Vec<String> {
        let declaration = &source.declarations[number];
        let mut lines = Vec::new();
        let section = declaration.section.map(|line| (path, line));
        if section.is_some() && section != self.section {
            let (_, line) = section.unwrap_or_default();
            lines.extend([String::new(), source.lines[line].trim_start().to_string()]);
        }
        self.section = section;
        let module = declaration.module.map(|module| (path, module));
        let entered = module.is_some() && module != self.module;
        if let (true, Some((_, module))) = (entered, module) {
            let module = &source.modules[module];
            lines.push(String::new());
            lines.extend(self.comment(path, source, module.comment.clone()));
            lines.push(source.lines[module.header].clone());
        }
        self.module = module;
        if !entered {
            lines.push(String::new());
        }
        lines.extend(self.comment(path, source, declaration.comment.clone()));
        lines.extend_from_slice(&source.lines[declaration.lines.clone()]);
        lines
    }
}

/// Puts the text together and checks it.
pub fn compose(project: &Project, list: &[Chapter]) -> Text {
    let mut shown = Shown::default();
    let (mut chapters, mut faults) = (Vec::new(), Vec::new());
    // What is printed, in this order; which of them are roots.
    let mut printed: Vec<Id> = Vec::new();
    let mut roots: Vec<Id> = Vec::new();
    for chapter in list {
        let mut lines = vec![format!("# {}", chapter.heading)];
        for entry in &chapter.entries {
            let Some((path, source)) = project.sources.get_key_value(&entry.path) else {
                faults.push(format!("there is no crates/{}", entry.path));
                continue;
            };
            lines.extend([String::new(), format!("## {path}")]);
            lines.extend(shown.comment(path, source, source.head.clone()));
            for listed in &entry.names {
                let is = |declaration: &Declaration| declaration.name == listed.name;
                let Some(number) = source.declarations.iter().position(is) else {
                    faults.push(format!("crates/{path} declares no {}", listed.name));
                    continue;
                };
                let id = (path.as_str(), number);
                if printed.contains(&id) {
                    faults.push(format!("{} is listed twice", project.name(id)));
                    continue;
                }
                printed.push(id);
                if listed.is_root {
                    roots.push(id);
                }
                lines.extend(shown.declaration(path, source, number));
            }
        }
        chapters.push((chapter.heading.clone(), lines));
    }
    faults.extend(not_closed(project, &printed, &roots));
    let names = printed
        .iter()
        .map(|&id| project.declaration(id).name.clone());
    let names = names.collect();
    Text {
        chapters,
        faults,
        names,
    }
}

/// What is mentioned and not printed, or printed only behind; what no root needs.
fn not_closed(project: &Project, printed: &[Id], roots: &[Id]) -> Vec<String> {
    let mut faults = Vec::new();
    let mut fields: BTreeSet<String> = OWN_FIELDS.iter().map(|name| name.to_string()).collect();
    for &id in printed {
        let declaration = project.declaration(id);
        if declaration.has_fields() {
            fields.extend(declaration.parts.iter().cloned());
        }
    }
    let place = |id: Id| printed.iter().position(|&other| other == id);
    // What each one that is printed needs.
    let mut needs: BTreeMap<Id, Vec<Id>> = BTreeMap::new();
    // What is not printed, and what mentions it.
    let mut missing: BTreeMap<Id, BTreeSet<String>> = BTreeMap::new();
    for (number, &id) in printed.iter().enumerate() {
        let by = project.name(id);
        for mention in project.mentions(id) {
            let (name, may_be_unknown) = match mention {
                Mention::Field(name) if fields.contains(&name) => continue,
                Mention::Field(name) => {
                    faults.push(format!(
                        "{by} asks for {name}, a field of no record that is printed"
                    ));
                    continue;
                }
                Mention::Word(name) => (name, true),
                Mention::Name(name) => (name, false),
            };
            match project.meaning(id.0, &name) {
                Meaning::Declared { id: other, .. } if other == id => {}
                Meaning::Declared { id: other, .. } => match place(other) {
                    None => drop(missing.entry(other).or_default().insert(by.clone())),
                    Some(behind) => {
                        needs.entry(id).or_default().push(other);
                        if behind > number {
                            let other = project.name(other);
                            faults.push(format!(
                                "{by} names {other}, which is printed only behind it"
                            ));
                        }
                    }
                },
                Meaning::Unknown if !may_be_unknown => {
                    faults.push(format!("{by} names {name}, which is declared nowhere"));
                }
                _ => {}
            }
        }
    }
    for (id, by) in missing {
        let by: Vec<String> = by.into_iter().collect();
        let (name, by) = (project.name(id), by.join(", "));
        faults.push(format!("{name} is not printed and is named by {by}"));
    }
    let mut reached: BTreeSet<Id> = BTreeSet::new();
    let mut left = roots.to_vec();
    while let Some(id) = left.pop() {
        if reached.insert(id) {
            left.extend(needs.get(&id).into_iter().flatten());
        }
    }
    for &id in printed.iter().filter(|id| !reached.contains(*id)) {
        let name = project.name(id);
        faults.push(format!("{name} is printed, and no root needs it"));
    }
    faults
}

/// The document that speaks of the text, and its chapter.
const DOCUMENT: &str = "docs/PROMISES.md";
const CHAPTER: &str = "## What a reader has to believe";
const PRINTS: &str = "believe` prints ";

/// What is wrong between the text and the document: it says how many lines are printed,
/// and a table names the conditions, each of which must be printed.
pub fn compare_with(document: &str, project: &Project, text: &Text) -> Vec<String> {
    let mut faults = Vec::new();
    let lines = text.lines().len();
    match said_lines(document) {
        Some(said) if said == lines => {}
        Some(said) => faults.push(format!(
            "{DOCUMENT} says {said} lines, and {lines} are printed"
        )),
        None => faults.push(format!("{DOCUMENT} does not say `{PRINTS}{lines} lines")),
    }
    for name in condition_names(document) {
        if !text.names.contains(&name) && !project.has_crate(&name) {
            faults.push(format!(
                "{name} is a condition of {DOCUMENT} and is not printed"
            ));
        }
    }
    faults
}

/// The number of lines in "`.. believe` prints N lines".
fn said_lines(document: &str) -> Option<usize> {
    let rest = &document[document.find(PRINTS)? + PRINTS.len()..];
    let number = &rest[..rest.find(" lines")?];
    number.replace(',', "").parse().ok()
}

/// The names in the second column of the chapter's table.
fn condition_names(document: &str) -> BTreeSet<String> {
    let chapter = document.lines().skip_while(|line| *line != CHAPTER).skip(1);
    let chapter = chapter.take_while(|line| !line.starts_with("## "));
    let rows = chapter.filter(|line| line.starts_with('|')).skip(2);
    let cells = rows.filter_map(|row| row.split('|').nth(2));
    let quoted = cells.flat_map(|cell| cell.split('`').skip(1).step_by(2));
    let is_name = |word: &&str| !word.contains(['/', '.']);
    quoted.filter(is_name).map(str::to_string).collect()
}
