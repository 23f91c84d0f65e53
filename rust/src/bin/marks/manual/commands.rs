//! The commands.

use super::Command;

pub static COMMANDS: [Command; 6] = [
    Command {
        name: "find",
        forms: &[
            ("WORD FILE..", "print each offset at which WORD stands, from 0"),
            ("-m MARKFILE FILE..", "the same for the mark that MARKFILE finds"),
        ],
        more: &[
            "Each find is a line with its offset, counted from 0; finds may overlap. With several files, or with -r, the file's name and a \
             colon stand before it. The file - is standard input. Files of any size are searched in little memory, and what comes slowly \
             is searched and printed as it comes.",
            "A file that cannot be read is said on standard error, and the next one is taken.",
        ],
        of_commands: false,
    },
    Command {
        name: "salvage",
        forms: &[("FILE..", "list the rides by FIT headers, whole or cut")],
        more: &[
            "Each ride is a line with four words: where its header begins, counted from 0; whole or cut, or unsized where --unsized is given; \
             how many bytes of it are there; and how many it has by its header. Both numbers are of header, data and check together, so \
             without --unsized they are equal exactly where the ride is whole. With several files the file's name and a colon stand before it. The file - is standard input.",
            "A header is 12 or 14 bytes: its first byte is that size, bytes 4 to 7 declare how many bytes of data follow it, low byte \
             first, and bytes 8 to 11 are .FIT; behind the data is a check of two bytes. Each header that is wholly in the file is listed, \
             also one in the data of another ride. The ride is whole where header, data and check end within the file. Else it is cut, \
             and what is there of it goes up to the next header that is listed, or to the end of the file.",
            "A stranger may have written the header. So the size that it declares is believed for the kind of the ride and for nothing \
             else, and the check is not tested: a ride that is whole can be damaged all the same.",
            "Regular files and disks of any size are gone over in little memory. Standard input, and what else cannot be read at any \
             place, is read whole into memory first, as the length of all decides the kinds.",
            "A file that cannot be read is said on standard error, and the next one is taken.",
        ],
        of_commands: false,
    },
    Command {
        name: "save",
        forms: &[("WORD OUT", "write the mark file that finds WORD")],
        more: &[
            "OUT is whole or not there at all: it is written beside its place, brought to the disk, and only then given its name. A file \
             that is there already is left as it is, unless -f is given. OUT may be -, standard output.",
            "The file is of edition 2, unless --edition asks for 1, which older programs read too.",
            "A word of one letter is not saved: look for it directly.",
        ],
        of_commands: false,
    },
    Command {
        name: "check",
        forms: &[("MARKFILE..", "what it finds, or why it is refused, and where")],
        more: &["Each mark file gets a line: what it finds and its edition, or why it is refused, at which offset, and what to do. Below a \
             refused one are the bytes around that offset. The file - is standard input."],
        of_commands: false,
    },
    Command {
        name: "show",
        forms: &[("MARKFILE", "its oracle as a table: states, supplies, arrows")],
        more: &["The oracle is the automaton that the search walks; find --engine failure walks the one that --failure shows, and find \
             --engine compact the form that --compact shows. No search walks what --storacle shows. The file - is standard input."],
        of_commands: false,
    },
    Command {
        name: "help",
        forms: &[("[COMMAND]", "all of the help, or that of a command")],
        more: &["-h behind a command is its help in short, --help the same as this."],
        of_commands: true,
    },
];
