//! What a reader has to believe: how declarations are found in a file, which names they
//! mention, and that a text which is not closed is told.

use ferozhak_compare::believe::{compare_with, compose, parse_list, Project, Text};
use ferozhak_compare::declarations::{parse_antt, parse_rt, Form};
use ferozhak_compare::mentions::{mentions, Mention};

const FILE: &str = "\
-- A file.
use Rattle.std.specs.Prelude.{ℕ, zero, suc}
use Rattle.other.specs.declared.Answer.TheVariants as A

infixl 35 ◌plus◌
-- a sum
unfoldable pub ◌plus◌ : ℕ → ℕ → ℕ
a plus zero = a
a plus (suc b) = suc (a plus b)

-- ── a part ──

-- its parameters
module _ (s : List ℕ) (at : ℕ) where
  abbrev pub len : ℕ
  len = at plus 1

  -- two cases
  pub data Fits : ℕ → Type 0 where
    -- \"one\"
    one : {k : ℕ} → k ≡ len → Fits k
    other both : Fits
        0

pub record Holds (t : ℕ) : Type 0 where
  pub number : ℕ
  pub is : (len : ℕ) → number ≡ len → Fits [] t t

abbrev pub f : Answer → Answer → R
f (A.Refused n) r = record { at = g (λ (t : Tx) u. t.x.now (g u).y A.none u) n; to = \"no g\" }
f r (A.Refused n) = let m = n in (n : ℕ) × m
";

/// What a declaration of the file mentions, a field with a dot before it.
fn mentioned(name: &str) -> Vec<String> {
    let source = parse_antt(FILE);
    let mut declarations = source.declarations.iter();
    let declaration = declarations.find(|other| other.name == name).unwrap();
    let is_case = |name: &str| ["zero", "suc", "A.Refused"].contains(&name);
    let found = mentions(&source, declaration, &is_case).into_iter();
    let shown = found.map(|mention| match mention {
        Mention::Name(name) | Mention::Word(name) => name,
        Mention::Field(name) => format!(".{name}"),
    });
    shown.collect()
}

#[test]
fn a_file_is_read_declaration_by_declaration() {
    let source = parse_antt(FILE);
    let declarations = source.declarations.iter();
    let found = declarations.map(|one| (one.name.as_str(), one.form, one.lines.len()));
    let expected = [
        ("◌plus◌", Form::Definition, 3),
        ("len", Form::Definition, 2),
        ("Fits", Form::Data, 5),
        ("Holds", Form::Record, 3),
        ("f", Form::Definition, 3),
    ];
    assert_eq!(found.collect::<Vec<_>>(), expected);
    let fits = &source.declarations[2];
    assert_eq!(fits.parts, ["one", "other", "both"]);
    assert_eq!(source.lines[fits.comment.start], "  -- two cases");
    assert_eq!((fits.section, fits.module), (Some(10), Some(0)));
    assert_eq!(source.declarations[3].parts, ["number", "is"]);
    assert_eq!(source.declarations[3].module, None);
    assert_eq!(source.uses[1].alias.as_deref(), Some("A"));
}

#[test]
fn what_is_bound_is_no_mention() {
    assert_eq!(mentioned("◌plus◌"), ["plus", "suc", "zero", "ℕ"]);
    assert_eq!(mentioned("len"), ["List", "plus", "ℕ"]);
    assert_eq!(mentioned("Fits"), ["Fits", "List", "len", "ℕ", "≡"]);
    assert_eq!(mentioned("Holds"), ["Fits", "[]", "ℕ", "≡"]);
    let of_f = [
        "A.Refused",
        "A.none",
        "Answer",
        "R",
        "Tx",
        "g",
        "ℕ",
        ".at",
        ".now",
        ".to",
        ".x",
        ".y",
    ];
    assert_eq!(mentioned("f"), of_f);
}

#[test]
fn types_and_functions_of_a_crate_are_read() {
    let source = parse_rt(
        "\
// One of two.
#[derive(Clone, Copy)]
#[must_use]
pub enum Either {
    One(u8),
    Two,
}

pub fn f(a: &[u8], n: u8) -> Either
    requires { n < 9 }
    ensures low { P a.now n result.to }
    ensures high { Q result }
{
    g(a)
}
",
    );
    let either = &source.declarations[0];
    assert_eq!(either.parts, ["One", "Two"]);
    assert_eq!((either.comment.clone(), either.lines.clone()), (0..1, 1..7));
    let found = mentions(&source, either, &|_| false);
    let words = ["One", "Two", "Either", "enum", "pub", "u8"];
    let mut words = words.map(|word| Mention::Word(word.to_string()));
    words.sort();
    assert_eq!(found, words);
    let found = mentions(&source, &source.declarations[1], &|_| false);
    let word = |word: &str| Mention::Word(word.to_string());
    let name = |name: &str| Mention::Name(name.to_string());
    let field = |name: &str| Mention::Field(name.to_string());
    assert_eq!(found[..3], ["<", "P", "Q"].map(name));
    assert_eq!(found[3..5], ["now", "to"].map(field));
    assert_eq!(found[5..], ["Either", "f", "fn", "pub", "u8"].map(word));
}

/// A project of two files, and the text of a list.
fn text(list: &str) -> (Project, Text) {
    let mut project = Project::default();
    let more = "\
use Rattle.std.specs.Prelude.{ℕ}

unfoldable pub deep : ℕ → ℕ
deep n = n

unfoldable pub pick : ℕ → ℕ
pick n = deep n
";
    project.add("other/specs/More.antt", more);
    let first = "\
use Rattle.std.specs.Prelude.{ℕ}
use Rattle.other.specs.More.{pick}

-- a condition
pub record Good (n : ℕ) : Type 0 where
  pub is : pick n
";
    project.add("first/specs/First.antt", first);
    let text = compose(&project, &parse_list(list).unwrap());
    (project, text)
}

#[test]
fn a_text_that_is_closed_is_printed_as_it_is_listed() {
    let list = "\
# All

other/specs/More.antt deep
  pick
-- a remark
first/specs/First.antt *Good
";
    let (_, text) = text(list);
    let printed = "\
# All

## other/specs/More.antt

unfoldable pub deep : ℕ → ℕ
deep n = n

unfoldable pub pick : ℕ → ℕ
pick n = deep n

## first/specs/First.antt

-- a condition
pub record Good (n : ℕ) : Type 0 where
  pub is : pick n";
    assert_eq!(text.lines().join("\n"), printed);
    assert!(text.faults.is_empty(), "{:?}", text.faults);
}

#[test]
fn what_is_wrong_with_a_text_is_told() {
    let told = |list: &str, what: &str| {
        let (_, text) = text(&format!("# All\n{list}\n"));
        let mut faults = text.faults.iter();
        assert!(
            faults.any(|fault| fault.contains(what)),
            "{:?}",
            text.faults
        );
    };
    told(
        "first/specs/First.antt *Good",
        "pick (other/specs/More.antt) is not printed and is named by Good (first",
    );
    told("other/specs/More.antt deep", "and no root needs it");
    told("other/specs/More.antt *deep deep", "is listed twice");
    told(
        "other/specs/More.antt *pick deep",
        "which is printed only behind it",
    );
    told("other/specs/More.antt *none", "declares no none");
    told(
        "other/specs/Less.antt *none",
        "there is no crates/other/specs/Less.antt",
    );
    assert!(parse_list("other/specs/More.antt deep\n").is_err());
}

#[test]
fn the_document_and_the_text_are_compared() {
    let (project, text) = text("# All\nother/specs/More.antt *deep\n");
    let document = |lines: usize, name: &str| {
        format!(
            "\
## What a reader has to believe

`release/believe` prints {lines} lines.

| what | condition | what computes |
|---|---|---|
| a sum | `{name}` of `other` (`first/specs/First.antt`) | `pick` |

## Next
"
        )
    };
    let faults = |lines, name| compare_with(&document(lines, name), &project, &text).len();
    let lines = text.lines().len();
    assert_eq!(faults(lines, "deep"), 0);
    assert_eq!(faults(lines + 1, "deep"), 1);
    assert_eq!(faults(lines, "Good"), 1);
    assert_eq!(compare_with("", &project, &text).len(), 1);
}
