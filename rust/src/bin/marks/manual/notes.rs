//! What there is to know beside commands and options.

/// When what the man page says was last changed.
pub const DATE: &str = "2026-11-18";

pub const ONE_LINE: &str = "finds byte marks in files of any size, with a proved library";

pub const DESCRIPTION: &str =
    "marks looks for a word of bytes in files, whatever else is in them, and prints every place where it stands. A \
     mark that is looked for often can be saved as a mark file, which is its index. Of ride files that were cut, or that \
     stand one behind the other, it lists the rides by their headers, and writes each to a file of its own.";

/// Sections of the man page and of the long help: their titles and paragraphs.
pub const SECTIONS: [(&str, &[&str]); 3] = [
    (
        "WORDS",
        &["WORD has 1 to 4,096 bytes, taken as they are given, or in hex digits with -x. Options may stand anywhere; -- ends them, for a \
           word that begins with a hyphen."],
    ),
    (
        "NAMES",
        &["A file's name is printed as it is, unless it has control or directional characters, is not UTF-8, or begins as an escaped one \
           does: then it stands as $'..' with \\n, \\t, \\r, \\\\, \\' and \\xNN in it, which bash and zsh take back. So each answer is one \
           line. -0 and --json give names to programs."],
    ),
    (
        "MARK FILES",
        &[
            "A mark file is the index of a mark: the mark's letters and the arrows of its oracle, 5 to 20,481 bytes in edition 1, and two \
             more in edition 2, which are a check. It holds the mark from last letter to first, the mirror, because the search reads \
             backward; what it finds is the mark.",
            "A number in it is written in groups of seven bits, the lowest first, each a byte, whose high bit says that another follows; \
             the last of several is not zero. The fields are: the edition, 1 or 2; how many letters, 2 to 4,096; the letters; how many \
             arrows; for each arrow two numbers, its source less that of the arrow before, and its target less its source less 2; and in \
             edition 2 the check, which is the CRC-16/ARC of all bytes before it, two bytes, the low one first.",
            "A file may come from a stranger. It is taken exactly when it is the one file of some word in its edition, and refused \
             otherwise, with the offset at which it is broken. The check is there for accidents: a stranger can make it fit.",
        ],
    ),
];

/// Each status and when it is given.
pub const STATUS: [(&str, &str); 4] = [
    ("0", "something was found or listed, all mark files are good, or it is done"),
    ("1", "nothing was found or listed, or a mark file is refused by check"),
    ("2", "trouble: it is said on standard error"),
    ("141", "whoever read the output went away, as with marks find .. | head"),
];

/// Lines to try, and what they do.
pub const EXAMPLES: [(&str, &str); 8] = [
    ("marks find -x 2e464954 upload.fit", "each offset of the bytes .FIT"),
    ("marks save -x 2e464954 fit.mark", "the index of a mark, as a file"),
    ("marks find -c -m fit.mark *.fit", "how often, in each"),
    ("marks find -rl -j0 RIDE uploads", "the files below uploads that have RIDE, on all processors"),
    ("marks find -rl0 RIDE | xargs -0 ls -l", "the same below the current folder, handed to another program"),
    ("marks salvage upload.fit", "the rides in it, whole or cut"),
    ("marks salvage --extract rides card.img", "each of them as a file in the folder rides"),
    ("marks check fit.mark other.mark", "good and what it finds, or why it is refused, and where"),
];
