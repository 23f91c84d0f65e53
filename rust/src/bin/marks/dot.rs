//! An oracle as Graphviz text: the spine as a straight line of states, the extra arrows dashed. Of a failure oracle the failure arrows are
//! dashed, and have no letter. Only the spine decides where a state stands, or a word of a hundred letters would take minutes to draw.

use crate::{
    oracle::{Kind, Oracle},
    word::{letter, mirror, quoted},
};

pub fn lines(oracle: &Oracle) -> Vec<String> {
    let held = oracle.word();
    let (name, extra) = match oracle.kind {
        Kind::Factor | Kind::Compact => ("oracle", "style=dashed, constraint=false"),
        Kind::Failure => ("failure oracle", "constraint=false"),
        Kind::Storacle => ("storacle", "style=dashed, constraint=false"),
    };
    let title = format!("finds {}: the {name} of its mirror, {}", quoted(&mirror(&held)), quoted(&held));
    let mut lines = vec![
        "digraph oracle {".to_string(),
        format!("  label={};", text(&title)),
        "  rankdir=LR;".to_string(),
        "  node [shape=circle];".to_string(),
    ];
    for state in oracle.states() {
        if let Some(next) = oracle.spine(state) {
            lines.push(format!("  {state} -> {next} [label={}];", carried(oracle, next)));
        }
        for target in oracle.extra(state) {
            lines.push(format!("  {state} -> {target} [label={}, {extra}];", carried(oracle, target)));
        }
        if let Some(target) = oracle.failure(state) {
            lines.push(format!("  {state} -> {target} [style=dashed, constraint=false];"));
        }
    }
    lines.push("}".to_string());
    lines
}

fn carried(oracle: &Oracle, target: usize) -> String {
    text(&oracle.letter(target).map(letter).unwrap_or_default())
}

/// A text in quotes: a backslash and an ampersand would mean something in a label.
fn text(plain: &str) -> String {
    format!("\"{}\"", plain.replace('\\', "\\\\").replace('"', "\\\"").replace('&', "&amp;"))
}
