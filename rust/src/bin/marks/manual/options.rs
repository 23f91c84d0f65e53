//! The options, in the order in which they are told.

use super::{
    values::{EDITION, ENGINE, FOLDER, GENERATED, JOBS, MARKFILE, MOST},
    Known,
};

const FIND: &[&str] = &["find"];
const LISTING: &[&str] = &["find", "salvage"];
const ALL: &[&str] = &["find", "salvage", "save", "check", "show", "help"];

/// What an option has where nothing is said of it.
const PLAIN: Known = Known { short: None, long: "", value: None, commands: &[], line: "", more: "" };

pub static OPTIONS: [Known; 27] = [
    Known {
        short: Some(b'x'),
        long: "hex",
        commands: &["find", "save"],
        line: "WORD is in hex digits, as 2e464954 for .FIT",
        more: "Each byte is two digits, upper or lower case. Bytes or groups of them may be set apart by white space, a colon, a hyphen \
               or a comma, and each group may begin with 0x: 2e:46:49:54 and '0x2e, 0x46' are fine.",
        ..PLAIN
    },
    Known {
        short: Some(b'm'),
        long: "mark",
        value: Some(MARKFILE),
        commands: FIND,
        line: "find what this mark file finds",
        more: "It stands in the place of WORD. MARKFILE may be -, standard input.",
    },
    Known { short: Some(b'X'), long: "hex-offsets", commands: FIND, line: "print offsets in hex, as 0x12c", ..PLAIN },
    Known { short: Some(b'c'), long: "count", commands: FIND, line: "print only how many there are in each file", ..PLAIN },
    Known {
        short: Some(b'l'),
        long: "files-with-matches",
        commands: FIND,
        line: "print only the names of files with a find",
        more: "A file is read up to its first find.",
        ..PLAIN
    },
    Known {
        short: Some(b'q'),
        long: "quiet",
        commands: FIND,
        line: "print nothing, stop at the first find: status alone",
        more: "The status is 0 once anything is found, also where a file before could not be read.",
        ..PLAIN
    },
    Known { long: "max-count", value: Some(MOST), commands: FIND, line: "stop after N finds in each file", ..PLAIN },
    Known {
        short: Some(b'r'),
        long: "recursive",
        commands: FIND,
        line: "look in folders and all that is in them",
        more: "What is in a folder is taken in the order of its names, byte by byte. In folders, symbolic links are not followed, and \
               only regular files are read. Where no FILE is named it is the current folder.",
        ..PLAIN
    },
    Known {
        short: Some(b'j'),
        long: "jobs",
        value: Some(JOBS),
        commands: FIND,
        line: "search N files at once, 0: one for each processor",
        more: "The output is the same as with one.",
    },
    Known {
        short: Some(b'H'),
        long: "with-filename",
        commands: LISTING,
        line: "print the file's name too, as with several files",
        ..PLAIN
    },
    Known { short: Some(b'I'), long: "no-filename", commands: LISTING, line: "never print it", ..PLAIN },
    Known {
        short: Some(b'0'),
        long: "null",
        commands: LISTING,
        line: "a NUL behind each name, which is printed raw",
        more: "It stands in the place of the colon, or with -l of the end of line, so that any name can be read back, as by xargs -0.",
        ..PLAIN
    },
    Known {
        long: "json",
        commands: LISTING,
        line: "print each answer as a JSON object on a line",
        more: "A find is {\"file\":NAME,\"at\":OFFSET}, with -c a file {\"file\":NAME,\"count\":N}, with -l {\"file\":NAME}. With --stats \
               there is for each file also {\"file\":NAME,\"found\":N,\"bytes\":N,\"letters\":N}, behind its answers, with --engine \
               failure \"failures\":N in it too. A ride of salvage is {\"file\":NAME,\"start\":OFFSET,\"kind\":\"whole\",\
               \"bytes\":N,\"of\":N}, or \"kind\":\"cut\" or \"unsized\", with --extract also \"out\":NAME, the file that was written. A name that is not \
               UTF-8 is given in hex digits, as \"file_hex\" in the place of \"file\", and so is \"out\". Standard input is -.",
        ..PLAIN
    },
    Known {
        long: "engine",
        value: Some(ENGINE),
        commands: FIND,
        line: "how to search; without it, auto",
        more: "The finds are the same with each. Backward leaves most bytes of most files unread. Turbo reads some two letters for each \
               byte at most, however hostile the file is, and 18 where a pipe gives a few bytes at a time. Auto goes backward as long as \
               that is fair, then over to turbo; for a word of more than 64 bytes it is turbo from the start. Failure walks the failure \
               oracle, and is there for its fewer arrows and for comparing: for a word of m bytes that repeats itself, making its table \
               walks up to m*m/2 letters, 8.4 million for 4,096 bytes, for each part of a file again, and it may read m letters for each \
               byte of a hostile file, as backward may. Compact is backward with compact rows, the form for boards with little stack: it \
               reads the same letters, and shows here what such a board does.",
        ..PLAIN
    },
    Known {
        long: "stats",
        commands: FIND,
        line: "tell on standard error how many letters were read",
        more: "Letters that were read again count again. With --engine failure the failure arrows that were taken are told too, \
               which read no letter. With --json it is told on standard output.",
        ..PLAIN
    },
    Known {
        long: "unsized",
        commands: &["salvage"],
        line: "take a size of 0 for one that was never written",
        more: "A head unit that dies in mid-ride may leave a header whose size nobody has written. By what it says the ride has no data, and is \
               whole where two bytes follow it. With this option such a ride is called unsized, and goes up to the next header that is \
               listed or the end of FILE, as a cut one does.",
        ..PLAIN
    },
    Known {
        long: "extract",
        value: Some(FOLDER),
        commands: &["salvage"],
        line: "write each ride to a file of its own in DIR",
        more:
            "The files are called NAME.START.fit: the name of FILE without its folders, or standard-input, and where the ride begins. DIR \
               is made where it is missing and there is a ride. A whole ride is written from its header to its check, a cut one up to the \
               next header that is listed or the end of FILE. Each file is whole or not there at all. All rides of FILE are looked at \
               before one is written: where a file is there already, and where FILE is one that --all is for, nothing of it is written.",
        ..PLAIN
    },
    Known {
        long: "all",
        commands: &["salvage"],
        line: "write also where FILE has rides beyond measure",
        more: "Without it nothing is written of a FILE that lists more than 1,000 rides, or whose rides are more than twice its bytes \
               together, as those are that have others in their data: a stranger could fill the disk with it.",
        ..PLAIN
    },
    Known {
        short: Some(b'f'),
        long: "force",
        commands: &["save", "salvage"],
        line: "write over what is there already",
        more: "Its permissions are kept. Where the OUT of save is a symbolic link, the file that it leads to is replaced; a terminal, a \
               pipe or a device is written to as it is. In the DIR of salvage a symbolic link itself is replaced, so that nothing \
               outside of it is written, and no FILE that is named is written over.",
        ..PLAIN
    },
    Known {
        long: "edition",
        value: Some(EDITION),
        commands: &["save"],
        line: "which edition of the file; without it, 2",
        more: "Edition 2 ends with a check of all bytes before it, so that lost bits are noticed. Programs from before edition 2 refuse \
               it with 7: edition 1, which has two bytes less and no check, is for files that they are to read.",
        ..PLAIN
    },
    Known { long: "dot", commands: &["show"], line: "as Graphviz text: marks show --dot F | dot -Tsvg", ..PLAIN },
    Known {
        long: "failure",
        commands: &["show"],
        line: "the failure oracle of the same word",
        more: "It is the automaton that find --engine failure walks. A state may have one failure arrow, taken only where no arrow on the \
               letter leaves the state, and reading none. --dot draws these arrows dashed. It is not in the file: it is made of the word.",
        ..PLAIN
    },
    Known {
        long: "storacle",
        commands: &["show"],
        line: "the storacle of the same word, of up to 128 bytes",
        more: "It is an automaton for comparing, which no search walks. Each arrow leads to the first later state that has its letter; there \
               are seldom fewer than in the oracle. It is not in the file: it is made of the word.",
        ..PLAIN
    },
    Known {
        long: "compact",
        commands: &["show"],
        line: "the same oracle as compact rows, and their memory",
        more: "It is the form that find --engine compact walks, with the same arrows: for each state the letters with an arrow as a set of \
               256 bits, and all targets in one row, in which those of a state begin at its start. How many bytes both have is told, \
               beside those of the first form, which show prints without it. It is not in the file: it is made of the word.",
        ..PLAIN
    },
    Known { short: Some(b'h'), long: "help", commands: ALL, line: "this help; -h is shorter than --help", ..PLAIN },
    Known { short: Some(b'V'), long: "version", commands: ALL, line: "print the version", ..PLAIN },
    Known {
        long: "generate",
        value: Some(GENERATED),
        line: "print the man page or a shell's completions",
        more: "marks --generate man | man -l - shows the page; eval \"$(marks --generate complete-bash)\" completes in the shell at hand.",
        ..PLAIN
    },
];
