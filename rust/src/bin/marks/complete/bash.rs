//! For bash, which hands over the words of the line with `=` as a word of its own.

use super::{names, spelled, spellings};
use crate::manual::{Kind, Known, COMMANDS, OPTIONS};

pub fn lines() -> Vec<String> {
    let mut text = FRONT.replace("VALUED", &spelled(|known| known.value.is_some()).join("|"));
    text.extend(OPTIONS.iter().map(value));
    text += MIDDLE;
    text.extend(COMMANDS.iter().map(|command| options(command.name, Some(command.name))));
    text += &options("*", None);
    let of_commands: Vec<&str> = COMMANDS.iter().filter(|command| command.of_commands).map(|command| command.name).collect();
    text += &BACK.replace("COMMANDS", &names().join(" ")).replace("OF_THEM", &of_commands.join("|"));
    text.lines().map(str::to_string).collect()
}

/// What follows an option that takes a value.
fn value(known: &Known) -> String {
    let offered = match known.value.map(|value| value.kind) {
        None => return String::new(),
        Some(Kind::File) => "_marks_files \"$word\"".to_string(),
        Some(Kind::Number) => "COMPREPLY=()".to_string(),
        Some(Kind::OneOf(names)) => format!("_marks_words '{}' \"$word\"", names.join(" ")),
    };
    format!("        {}) {offered}; return ;;\n", spellings(known).join("|"))
}

/// The options of a command.
fn options(pattern: &str, command: Option<&str>) -> String {
    format!("            {pattern}) options='{}' ;;\n", spelled(|known| known.is_for(command)).join(" "))
}

const FRONT: &str = r#"# Completions of marks for bash. In the shell at hand: eval "$(marks --generate complete-bash)"
_marks_words() {
    mapfile -t COMPREPLY < <(compgen -W "$1" -- "$2")
}

_marks_files() {
    compopt -o filenames 2>/dev/null
    mapfile -t COMPREPLY < <(compgen -f -- "$1")
}

_marks() {
    local word=${COMP_WORDS[COMP_CWORD]} before=${COMP_WORDS[COMP_CWORD - 1]} command='' ended='' options i
    for ((i = 1; i < COMP_CWORD; i++)); do
        case ${COMP_WORDS[i]} in
        --) ended=yes ;;
        VALUED)
            [[ ${COMP_WORDS[i + 1]} == = ]] && ((i++))
            ((i++))
            ;;
        -*) ;;
        *) command=${command:-${COMP_WORDS[i]}} ;;
        esac
    done
    if [[ $word == = ]]; then
        word=''
    elif [[ $before == = ]]; then
        before=${COMP_WORDS[COMP_CWORD - 2]}
    fi
    case ${ended:-$before} in
"#;

const MIDDLE: &str = r#"    esac
    if [[ -z $ended && $word == -* ]]; then
        case $command in
"#;

const BACK: &str = r#"        esac
        _marks_words "$options" "$word"
        return
    fi
    case $command in
    '' | OF_THEM) _marks_words 'COMMANDS' "$word" ;;
    *) _marks_files "$word" ;;
    esac
}

complete -F _marks marks
"#;
