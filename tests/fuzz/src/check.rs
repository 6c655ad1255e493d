//! Runs the library on a case, and compares what it finds with the definition.

use crate::coverage;
use crate::munch::{Answer, Found, Munch, Rule, Stop, answer, is_passable, leads, rule};
use logos_codegen::generator::Config;
use logos_codegen::leaf::{Leaf, LeafId, VariantKind};
use logos_codegen::logos_derive::derive;
use logos_codegen::logos_help::FaultHelps;
use logos_codegen::logos_hir::hir::Hir;
use logos_codegen::logos_parser::analysis::analyze;
use logos_codegen::logos_scan::fold::folded::Folded;
use logos_codegen::logos_scan::items::items_by_chunks;
use logos_codegen::logos_tables::Shape;
use logos_codegen::logos_token::error::{Errors, FaultCode};
use logos_codegen::machine::{Action, Item, Lexer};
use logos_codegen::{Generated, Refusal, generate, strip_attributes};
use rattle_std::alloc::Global;

/// The steps that the definition may take for one input.
const FUEL: u64 = 2_000_000;

/// A source, and an input for its lexer.
#[derive(Clone, Debug, PartialEq)]
pub struct Case {
    pub source: String,
    pub input: Vec<u8>,
}

/// What the library did with a case, if that is right.
#[derive(Debug)]
pub struct Verdict {
    /// Numbers that tell apart what happened.
    pub facts: Vec<u64>,
    pub is_accepted: bool,
    /// Whether the items were compared with the definition.
    pub is_compared: bool,
}

/// What is wrong: its kind, by which findings are told apart, and a description.
#[derive(Debug)]
pub struct Wrong {
    pub kind: String,
    pub text: String,
}

fn wrong<T>(kind: &str, text: String) -> Result<T, Wrong> {
    Err(Wrong {
        kind: kind.to_string(),
        text,
    })
}

/// Returns a fact: a number for the part that it is about, and another.
fn fact(part: u64, value: usize) -> u64 {
    part << 32 | value.min(0xFFFF_FFFF) as u64
}

/// Runs the library on a source and an input.
///
/// # Errors
///
/// Returns what differs from the definition.
pub fn check(case: &Case) -> Result<Verdict, Wrong> {
    let config = Config {
        use_state_machine_codegen: case.source.len() % 2 == 0,
    };
    let _ = strip_attributes(Global, &case.source);
    if case.source.len() % 3 == 0 {
        check_derivation(&case.source)?;
    }
    let mut verdict = Verdict {
        facts: Vec::new(),
        is_accepted: false,
        is_compared: false,
    };
    match generate(Global, &case.source, config) {
        Ok(made) => {
            verdict.is_accepted = true;
            check_accepted(&made)?;
            check_input(&made, &case.input, &mut verdict)?;
        }
        Err(Refusal::Memory) => verdict.facts.push(fact(1, 0)),
        Err(Refusal::Errors(errors)) => check_refused(&case.source, &errors, &mut verdict)?,
    }
    Ok(verdict)
}

/// Checks that the macro has an implementation or an error for a source.
fn check_derivation(source: &str) -> Result<(), Wrong> {
    let Ok(made) = derive(Global, source, Shape::Tables, &FaultHelps) else {
        return Ok(());
    };
    match made.implementation.is_none() && made.diagnostics.is_empty() {
        true => wrong(
            "derivation",
            "neither an implementation nor an error".to_string(),
        ),
        false => Ok(()),
    }
}

/// Checks that no leaf of an accepted source is one that is refused, and prints its text.
fn check_accepted(made: &Generated<'_>) -> Result<(), Wrong> {
    for leaf in made.graph.leaves() {
        let tree = leaf.pattern.hir();
        if is_passable(tree) || leads(tree) {
            return wrong(
                "accepted",
                "a leaf matches the empty text, or leads".to_string(),
            );
        }
    }
    let _ = made.text(Global);
    Ok(())
}

/// Checks the faults of a refused source: their spans, and those of the graph.
fn check_refused(source: &str, errors: &Errors, verdict: &mut Verdict) -> Result<(), Wrong> {
    let list = errors.list();
    for (at, error) in list.iter().enumerate() {
        let span = error.span;
        verdict
            .facts
            .push(fact(2, error.code as usize * 4 + at.min(3)));
        if source.get(span.from..span.to).is_none() {
            let text = format!(
                "{} has the span {}..{}",
                error.code.name(),
                span.from,
                span.to
            );
            return wrong("span", text);
        }
    }
    if list.is_empty() {
        return wrong("refused", "the list of faults is empty".to_string());
    }
    let is_of_graph = |code| {
        use FaultCode::{Disambiguation, EmptyMatch, NoUniversalStart};
        matches!(code, Disambiguation | EmptyMatch | NoUniversalStart)
    };
    match list.iter().all(|error| is_of_graph(error.code)) {
        true => check_graph_faults(source, errors),
        false => Ok(()),
    }
}

/// Checks the faults of the graph of a source without others.
fn check_graph_faults(source: &str, errors: &Errors) -> Result<(), Wrong> {
    let Ok(analysis) = analyze(Global, source) else {
        return Ok(());
    };
    let trees = || analysis.leaves.iter().map(|leaf| leaf.pattern.hir());
    let wanted = match (
        trees().any(leads),
        trees().filter(|it| is_passable(it)).count(),
    ) {
        (true, _) => vec![FaultCode::NoUniversalStart],
        (false, 0) => return Ok(()),
        (false, count) => vec![FaultCode::EmptyMatch; count],
    };
    let found: Vec<_> = errors.list().iter().map(|error| error.code).collect();
    match found == wanted {
        true => Ok(()),
        false => wrong("graph", format!("wanted {wanted:?}, found {found:?}")),
    }
}

/// Returns what the callback of a leaf answers.
fn action(leaf: LeafId, slice: &[u8]) -> Action {
    match answer(leaf.0, slice) {
        Answer::Emit => Action::Emit,
        Answer::Skip => Action::Skip,
        Answer::Error => Action::Error,
    }
}

fn found(item: Item<'_>) -> Found {
    match item {
        Item::Token { leaf, span, .. } => Found {
            is_error: false,
            leaf: Some(leaf.0),
            from: span.from,
            to: span.to,
        },
        Item::Error { leaf, span, .. } => Found {
            is_error: true,
            leaf: leaf.map(|leaf| leaf.0),
            from: span.from,
            to: span.to,
        },
    }
}

/// Returns the rules of the leaves of a source.
fn rules<'t>(leaves: &'t [Leaf<'_>]) -> Vec<Rule<'t>> {
    let rule_of = |leaf: &'t Leaf<'_>| Rule {
        skips: matches!(leaf.kind, VariantKind::Skip),
        calls_back: leaf.callback.is_some(),
        ..rule(&leaf.pattern, leaf.priority)
    };
    leaves.iter().map(rule_of).collect()
}

/// Compares the items of the lexer and of the scan with the definition.
fn check_input(made: &Generated<'_>, input: &[u8], verdict: &mut Verdict) -> Result<(), Wrong> {
    let is_text = made.graph.utf8_mode();
    let valid = std::str::from_utf8(input).map_err(|error| error.valid_up_to());
    let mut lexer = match (Lexer::new_bytes(&made.code, input, action), is_text, valid) {
        (Ok(lexer), false, _) | (Ok(lexer), true, Ok(_)) => lexer,
        (Err(error), true, Err(at)) if error.valid_up_to == at => return Ok(()),
        _ => return wrong("utf8", format!("{is_text} {valid:?}")),
    };
    let (mut lexed, mut most) = (Vec::new(), 0);
    while let Some(item) = lexer.next() {
        lexed.push(found(item));
        most = most.max(lexer.steps());
        if lexer.steps() > input.len() - lexer.span().from + 2 {
            return wrong(
                "steps",
                format!("{} at {}", lexer.steps(), lexer.span().from),
            );
        }
    }
    check_scan(made, input, &lexed)?;
    let states = made.graph.iter_states().count();
    let kinds = lexed
        .iter()
        .map(|it| fact(3, it.leaf.unwrap_or(99) * 2 + usize::from(it.is_error)));
    verdict.facts.extend(kinds);
    verdict
        .facts
        .push(fact(4, states.ilog2() as usize * 64 + most.min(63)));
    verdict.facts.push(fact(5, made.graph.leaves().len()));
    verdict.facts.extend(
        made.graph
            .leaves()
            .iter()
            .map(|leaf| fact(6, shape(leaf.pattern.hir()))),
    );
    coverage::hold();
    compare(made, input, &lexed, verdict)
}

/// Compares the items of the scan by chunks with those of the lexer.
fn check_scan(made: &Generated<'_>, input: &[u8], lexed: &[Found]) -> Result<(), Wrong> {
    let Ok(Some(folded)) = Folded::new(Global, &made.code) else {
        return Ok(());
    };
    let Ok(items) = items_by_chunks(Global, &folded, input, &action) else {
        return Ok(());
    };
    let scanned: Vec<_> = items.iter().map(|item| found(*item)).collect();
    match scanned == lexed {
        true => Ok(()),
        false => wrong("scan", difference("the lexer", lexed, "the scan", &scanned)),
    }
}

/// Compares items with the definition.
fn compare(
    made: &Generated<'_>,
    input: &[u8],
    lexed: &[Found],
    verdict: &mut Verdict,
) -> Result<(), Wrong> {
    let rules = rules(made.graph.leaves());
    let munch = Munch {
        rules: &rules,
        is_text: made.graph.utf8_mode(),
        input,
    };
    match munch.items(&mut FUEL.clone()) {
        Err(Stop::Fuel) => Ok(()),
        Err(Stop::Ambiguous {
            leaves,
            span: [from, to],
        }) => {
            let text = format!("accepted, but the leaves {leaves:?} match {from}..{to}");
            wrong("ambiguous", text)
        }
        Ok(wanted) if wanted == lexed => {
            verdict.is_compared = true;
            Ok(())
        }
        Ok(wanted) => wrong(
            "items",
            difference("the definition", &wanted, "the lexer", lexed),
        ),
    }
}

/// Returns where two lists of items differ first.
fn difference(one: &str, items: &[Found], other: &str, others: &[Found]) -> String {
    let at = items
        .iter()
        .zip(others)
        .take_while(|(one, other)| one == other)
        .count();
    let (item, found) = (items.get(at), others.get(at));
    format!("item {at}: by {one} {item:?}, by {other} {found:?}")
}

/// Returns a number for the form of a tree.
fn shape(tree: &Hir) -> usize {
    let all = |parts: &[Hir]| {
        parts
            .iter()
            .take(4)
            .fold(7, |sum: usize, it| sum * 31 + shape(it) % 1009)
    };
    match tree {
        Hir::Empty => 1,
        Hir::Literal(bytes) => 2 + bytes.len().min(2),
        Hir::Class(_) => 5,
        Hir::Look(look) => 10 + *look as usize,
        Hir::Repetition { min, max, sub, .. } => {
            let counts = (*min).min(2) as usize * 4 + max.map_or(3, |max| max.min(2) as usize);
            100 + counts * 1013 + shape(sub) % 1009 * 17
        }
        Hir::Capture(sub) => 20 + shape(sub) % 1009,
        Hir::Concat(parts) => 30 + all(parts),
        Hir::Alternation(parts) => 60 + all(parts) * 3,
    }
}
