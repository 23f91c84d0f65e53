//! Options, and command lines that ask for nothing that can be done.

use crate::Folder;

#[test]
fn options_stand_anywhere_up_to_two_hyphens() {
    let here = Folder::new("options").with("ride", "ababa").with("-c", "-aba");
    here.marks(&["find", "aba", "ride", "-c"]).is(0, "2\n");
    here.marks(&["-c", "find", "aba", "ride"]).is(0, "2\n");
    here.marks(&["find", "616261", "-Hx", "ride", "-X"]).is(0, "ride:0x0\nride:0x2\n");
    here.marks(&["find", "--", "aba", "-c"]).is(0, "1\n");
    here.marks(&["find", "aba", "--", "ride", "-c"]).is(0, "ride:0\nride:2\n-c:1\n");
    here.marks(&["find", "--", "-a", "-c"]).is(0, "0\n");
    here.marks(&["find", "-H", "--", "aba", "--"]).is_with(2, "", "marks: --: there is no such file; check its name\n");
}

#[test]
fn what_cannot_be_done_is_said_with_what_to_do() {
    let here = Folder::new("usage").with("ride", "ababa");
    let commands = "it is find, salvage, save, check, show or help; marks --help has more";
    let options = "marks --help lists the options, and -- goes before a word that begins with - and is none";
    let save = "it takes a WORD and the file to write; as in marks save -x 2e464954 fit.mark";
    let show = "it takes one MARKFILE; name one that marks save wrote, or - for standard input";
    let engines = "it is auto, backward, turbo, failure or compact";
    let cases: [(&[&str], &str); 42] = [
        (&["-c"], &format!("command: none is given; {commands}")),
        (&["fnid", "a", "ride"], &format!("fnid: there is no such command; {commands}")),
        (&["find"], "find: no WORD is given; give the word to find, or a mark file with -m"),
        (&["find", "-r"], "find: no WORD is given; give the word to find, or a mark file with -m"),
        (&["find", "a"], "find: no FILE is given; name the files to look in, or - for standard input"),
        (&["find", "-m", "x"], "find: no FILE is given; name the files to look in, or - for standard input"),
        (&["find", "a", "ride", "-m"], "-m: no mark file follows it; name one that marks save wrote"),
        (&["find", "ride", "--mark"], "-m: no mark file follows it; name one that marks save wrote"),
        (&["find", "-m", "x", "--mark=y", "ride"], "-m: it is given twice; look for one mark at a time"),
        (&["find", "a", "ride", "--engine"], &format!("--engine: no name follows it; {engines}")),
        (&["find", "--engine=fast", "a", "ride"], &format!("--engine: it cannot be \"fast\"; {engines}")),
        (&["find", "--engine", "", "a", "ride"], &format!("--engine: it cannot be \"\"; {engines}")),
        (&["find", "--engine", "\u{1b}[2J", "a", "ride"], &format!("--engine: it cannot be \"\\x1b[2J\"; {engines}")),
        (&["find", "--engine=auto", "--engine", "turbo", "a", "ride"], "--engine: it is given twice; choose one"),
        (&["find", "-x", "-m", "x", "ride"], "find: both -x and -m are given; give WORD in hex, or a mark file"),
        (&["find", "-m", "-", "ride", "-"], "find: - is both the mark file and a FILE; name one of them"),
        (&["find", "a", "-", "ride", "-"], "find: - is given twice; standard input can be read once"),
        (&["find", "-z", "a", "ride"], &format!("-z: there is no such option; {options}")),
        (&["find", "-cz", "a", "ride"], &format!("-z: there is no such option; {options}")),
        (&["find", "--colour", "a", "ride"], &format!("--colour: there is no such option; {options}")),
        (&["find", "--colour=red", "a", "ride"], &format!("--colour: there is no such option; {options}")),
        (&["find", "--\u{1b}[2J", "a", "ride"], &format!("$'--\\x1b[2J': there is no such option; {options}")),
        (&["find", "--count=3", "a", "ride"], "--count: it takes no value; leave = and what follows out"),
        (&["find", "--dot", "a", "ride"], "find: --dot is for show; leave it out"),
        (&["find", "--failure", "a", "ride"], "find: --failure is for show; leave it out"),
        (&["show", "--failure=yes", "ride"], "--failure: it takes no value; leave = and what follows out"),
        (&["find", "--storacle", "a", "ride"], "find: --storacle is for show; leave it out"),
        (&["show", "--storacle=yes", "ride"], "--storacle: it takes no value; leave = and what follows out"),
        (&["show", "--storacle", "--failure", "ride"], "show: both --failure and --storacle are given; choose one"),
        (&["show", "ride", "--compact", "--storacle"], "show: both --storacle and --compact are given; choose one"),
        (&["find", "--compact", "a", "ride"], "find: --compact is for show; leave it out"),
        (&["show", "--compact=yes", "ride"], "--compact: it takes no value; leave = and what follows out"),
        (&["show", "--compact", "--failure", "ride"], "show: both --failure and --compact are given; choose one"),
        (&["check", "-x", "ride"], "check: --hex is for find and save; leave it out"),
        (&["find", "-f", "a", "ride"], "find: --force is for save and salvage; leave it out"),
        (&["save", "-c", "a", "b"], "save: --count is for find; leave it out"),
        (&["check", "--engine", "turbo", "ride"], "check: --engine is for find; leave it out"),
        (&["save", "a"], &format!("save: {save}")),
        (&["save", "a", "b", "c"], &format!("save: {save}")),
        (&["check"], "check: no MARKFILE is given; name the mark files to check, or - for standard input"),
        (&["show"], &format!("show: {show}")),
        (&["show", "--dot", "a", "b"], &format!("show: {show}")),
    ];
    for (words, said) in cases {
        here.marks(words).is_with(2, "", &format!("marks: {said}\n"));
    }
    here.marks(&["show", "-m", "ride"]).is_with(2, "", "marks: show: --mark is for find; leave it out\n");
}

#[test]
fn an_edition_is_1_or_2() {
    let here = Folder::new("usage-edition");
    let cases: [(&[&str], &str); 6] = [
        (&["save", "--edition", "3", "aa", "b"], "--edition: it cannot be \"3\"; it is 1 or 2"),
        (&["save", "--edition=0", "aa", "b"], "--edition: it cannot be \"0\"; it is 1 or 2"),
        (&["save", "--edition=01", "aa", "b"], "--edition: it cannot be \"01\"; it is 1 or 2"),
        (&["save", "aa", "b", "--edition"], "--edition: no number follows it; it is 1 or 2"),
        (&["save", "--edition=1", "--edition=2", "aa", "b"], "--edition: it is given twice; choose one"),
        (&["check", "--edition", "1", "ride"], "check: --edition is for save; leave it out"),
    ];
    for (words, said) in cases {
        here.marks(words).is_with(2, "", &format!("marks: {said}\n"));
    }
}
