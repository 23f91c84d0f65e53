//! What the program says of itself: help, version, man page and completions.

use crate::{told, Folder, Said};
use marks::{LONGEST_FILE, LONGEST_WORD};

const COMMANDS: [&str; 6] = ["find", "salvage", "save", "check", "show", "help"];
const OPTIONS: [&str; 27] = [
    "hex",
    "mark",
    "hex-offsets",
    "count",
    "files-with-matches",
    "quiet",
    "max-count",
    "recursive",
    "jobs",
    "with-filename",
    "no-filename",
    "null",
    "json",
    "engine",
    "stats",
    "unsized",
    "extract",
    "all",
    "force",
    "edition",
    "dot",
    "failure",
    "storacle",
    "compact",
    "help",
    "version",
    "generate",
];

#[track_caller]
fn good(said: Said) -> String {
    assert_eq!((said.status, said.err.as_str()), (Some(0), ""));
    said.out
}

#[test]
fn help_fits_the_screen() {
    let here = Folder::new("help");
    let mut calls: Vec<Vec<&str>> = vec![vec!["-h"], vec!["--help"]];
    calls.extend(COMMANDS.iter().flat_map(|command| [vec![*command, "-h"], vec![*command, "--help"]]));
    for call in calls {
        let help = good(here.marks(&call));
        assert!(help.lines().all(|line| line.chars().count() <= 80 && !line.ends_with(' ')), "{call:?}: {help}");
    }
    assert!(good(here.marks(&["-h"])).lines().count() <= 24);
    for command in COMMANDS {
        assert!(good(here.marks(&[command, "-h"])).lines().count() <= 24, "{command}");
    }
}

#[test]
fn help_has_all_there_is() {
    let here = Folder::new("all-help");
    let whole = good(here.marks(&["--help"]));
    for option in OPTIONS {
        assert!(whole.contains(&format!(" --{option} ")), "{option}");
    }
    for word in
        ["mirror", "auto", "backward", "turbo", "failure", "compact", "m*m/2", "file_hex", "Status:", "Examples:", "Mark files:", "$'..'"]
    {
        assert!(whole.contains(word) || good(here.marks(&["help", "find"])).contains(word), "{word}");
    }
    assert!(whole.contains(&format!("WORD has 1 to {} bytes", told(LONGEST_WORD))));
    let unwrapped = whole.split_whitespace().collect::<Vec<_>>().join(" ");
    assert!(unwrapped.contains(&format!("5 to {} bytes in edition 1, and two more in edition 2", told(LONGEST_FILE - 2))));
    for command in COMMANDS {
        assert!(whole.contains(&format!("marks {command} ")), "{command}");
    }
}

#[test]
fn help_is_asked_for_in_every_way() {
    let here = Folder::new("ways");
    let ask = |words: &[&str]| good(here.marks(words));
    assert_eq!(ask(&["help"]), ask(&["--help"]));
    assert_eq!(ask(&["help", "find"]), ask(&["find", "--help"]));
    assert_eq!(ask(&["find", "aba", "ride", "-c", "--help"]), ask(&["find", "--help"]));
    assert_eq!(ask(&["--help", "save"]), ask(&["save", "--help"]));
    assert_eq!(ask(&["check", "-x", "-h"]), ask(&["check", "-h"]));
    assert_eq!(ask(&["help", "help"]), ask(&["help", "--help"]));
    assert!(ask(&["find", "-h"]).len() < ask(&["find", "-h", "--help"]).len());
    here.marks(&["help", "fnid"]).is_with(
        2,
        "",
        "marks: fnid: there is no such command; it is find, salvage, save, check, show or help; marks --help has more\n",
    );
    // nothing asked for is no success
    let short = ask(&["-h"]);
    here.marks::<&str>(&[]).is_with(2, "", &short);
    for words in [&["--version"][..], &["-V"], &["find", "-V"]] {
        here.marks(words).is(0, concat!("marks ", env!("CARGO_PKG_VERSION"), "\n"));
    }
}

/// What a tool says of a text, where the tool is at hand.
fn judged(here: &Folder, tool: &str, line: &str) -> Option<Said> {
    let said = here.shell(&format!("command -v {tool} >/dev/null || exit 99; {line}"));
    if said.status == Some(99) {
        eprintln!("not tried: there is no {tool}");
        return None;
    }
    Some(said)
}

#[test]
fn the_man_page_is_whole_and_well_formed() {
    let here = Folder::new("man");
    let page = good(here.marks(&["--generate", "man"]));
    let sections: Vec<&str> = page.lines().filter_map(|line| line.strip_prefix(".SH ")).collect();
    let front = ["NAME", "SYNOPSIS", "DESCRIPTION", "COMMANDS", "OPTIONS"];
    assert_eq!(sections, [&front[..], &["WORDS", "NAMES", "MARK FILES", "EXIT STATUS", "EXAMPLES"]].concat());
    for option in OPTIONS {
        assert!(page.contains(&format!("\\-\\-{}\\fR", option.replace('-', "\\-"))), "{option}");
    }
    let here = here.with("marks.1", &page);
    for (tool, line) in [("groff", "groff -man -ww -Tutf8 marks.1 2>&1 >/dev/null"), ("mandoc", "mandoc -Tlint -Wwarning marks.1")] {
        if let Some(said) = judged(&here, tool, line) {
            said.is(0, "");
        }
    }
    if let Some(said) = judged(&here, "groff", "groff -man -Tascii -P-cbou marks.1 | grep -c -e --files-with-matches -e 0x2e,") {
        said.is(0, "2\n");
    }
}

#[test]
fn bash_completes_the_line() {
    let here = Folder::new("bash").with("ride one", "").with("ride.fit", "").with("other", "");
    std::fs::write(here.path("complete"), good(here.marks(&["--generate", "complete-bash"]))).unwrap();
    let offered = |words: &[&str]| {
        let program = r#"source ./complete; COMP_WORDS=("$@"); COMP_CWORD=$(($# - 1)); _marks; printf '%s\n' "${COMPREPLY[@]}""#;
        let output = here.command("bash").args(["-c", program, "bash"]).args(words).output().unwrap();
        assert_eq!((output.stderr.as_slice(), output.status.code()), (&b""[..], Some(0)));
        let mut lines: Vec<String> = String::from_utf8(output.stdout).unwrap().lines().map(str::to_string).collect();
        lines.retain(|line| !line.is_empty());
        lines
    };
    let engines = ["auto", "backward", "turbo", "failure", "compact"];
    assert_eq!(offered(&["marks", ""]), COMMANDS);
    assert_eq!(offered(&["marks", "s"]), ["salvage", "save", "show"]);
    assert_eq!(offered(&["marks", "help", "c"]), ["check"]);
    assert_eq!(offered(&["marks", "save", "-"]), ["-x", "--hex", "-f", "--force", "--edition", "-h", "--help", "-V", "--version"]);
    assert_eq!(offered(&["marks", "save", "--edition", ""]), ["1", "2"]);
    assert_eq!(offered(&["marks", "salvage", "--"]).len(), 10);
    assert_eq!(offered(&["marks", "salvage", "--ex"]), ["--extract"]);
    assert_eq!(offered(&["marks", "salvage", "--extract", "oth"]), ["other"]);
    assert_eq!(offered(&["marks", "salvage", "--extract", "=", "oth"]), ["other"]);
    assert_eq!(offered(&["marks", "find", "--st"]), ["--stats"]);
    assert_eq!(offered(&["marks", "show", "--f"]), ["--failure"]);
    assert_eq!(offered(&["marks", "show", "--s"]), ["--storacle"]);
    assert_eq!(offered(&["marks", "show", "--c"]), ["--compact"]);
    assert_eq!(offered(&["marks", "find", "--engine", "c"]), ["compact"]);
    assert_eq!(offered(&["marks", "-c", "find", "--engine", "=", "turbo", "--max"]), ["--max-count"]);
    assert_eq!(offered(&["marks", "find", "--engine", ""]), engines);
    assert_eq!(offered(&["marks", "find", "--engine", "="]), engines);
    assert_eq!(offered(&["marks", "find", "--engine", "=", "tu"]), ["turbo"]);
    assert_eq!(offered(&["marks", "--generate", "complete-"]), ["complete-bash", "complete-zsh", "complete-fish"]);
    let mut rides = offered(&["marks", "find", "aba", "ride"]);
    rides.sort();
    assert_eq!(rides, ["ride one", "ride.fit"]);
    assert_eq!(offered(&["marks", "find", "-m", "oth"]), ["other"]);
    assert_eq!(offered(&["marks", "find", "-j", ""]), [""; 0]);
    assert_eq!(offered(&["marks", "find", "--", "-"]), [""; 0]);
}

#[test]
fn zsh_and_fish_take_their_completions() {
    let here = Folder::new("shells");
    for (shell, of) in [("zsh", "_marks"), ("fish", "marks.fish")] {
        let text = good(here.marks(&["--generate", &format!("complete-{shell}")]));
        assert!(OPTIONS.iter().all(|option| text.contains(&format!("--{option}")) || text.contains(&format!("-l {option} "))), "{text}");
        std::fs::write(here.path(of), text).unwrap();
        if let Some(said) = judged(&here, shell, &format!("{shell} -n {of}")) {
            said.is(0, "");
        }
    }
    let asked = ["marks find --engine t", "marks sa", "marks salvage --ex"].map(|line| format!("complete -C \"{line}\"")).join("; ");
    let asked = format!("HOME=$PWD fish --no-config -c 'source marks.fish; {asked}'");
    if let Some(said) = judged(&here, "fish", &asked) {
        let [engine, salvage] = ["turbo\thow to search; without it, auto", "salvage\tlist the rides by FIT headers, whole or cut"];
        let [save, extract] = ["save\twrite the mark file that finds WORD", "--extract\twrite each ride to a file of its own in DIR"];
        said.is(0, &format!("{engine}\n{salvage}\n{save}\n{extract}\n"));
    }
    here.marks(&["--generate", "complete-csh"]).is_with(
        2,
        "",
        "marks: --generate: it cannot be \"complete-csh\"; it is man, complete-bash, complete-zsh or complete-fish\n",
    );
    here.marks(&["find", "--generate", "man"]).is_with(2, "", "marks: find: --generate stands without a command; leave one of them out\n");
}
