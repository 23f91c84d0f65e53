//! The values that options take.

use super::{Kind, Value};

pub const MARKFILE: Value = Value {
    name: "MARKFILE",
    kind: Kind::File,
    missing: "no mark file follows it",
    advice: "name one that marks save wrote",
    advice_of_two: "look for one mark at a time",
};

pub const ENGINE: Value = Value {
    name: "NAME",
    kind: Kind::OneOf(&["auto", "backward", "turbo", "failure", "compact"]),
    missing: "no name follows it",
    advice: "",
    advice_of_two: "choose one",
};

pub const MOST: Value = Value {
    name: "N",
    kind: Kind::Number,
    missing: "no number follows it",
    advice: "give the most finds of a file, 1 or more",
    advice_of_two: "choose one",
};

pub const JOBS: Value = Value {
    name: "N",
    kind: Kind::Number,
    missing: "no number follows it",
    advice: "give how many files at once, up to 256, or 0 for as many as there are processors",
    advice_of_two: "choose one",
};

pub const FOLDER: Value = Value {
    name: "DIR",
    kind: Kind::File,
    missing: "no directory follows it",
    advice: "name the directory to write to",
    advice_of_two: "choose one",
};

pub const EDITION: Value =
    Value { name: "N", kind: Kind::OneOf(&["1", "2"]), missing: "no number follows it", advice: "", advice_of_two: "choose one" };

pub const GENERATED: Value = Value {
    name: "KIND",
    kind: Kind::OneOf(&["man", "complete-bash", "complete-zsh", "complete-fish"]),
    missing: "no kind follows it",
    advice: "",
    advice_of_two: "make one at a time",
};
