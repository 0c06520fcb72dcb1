//! Completions for shells, made of the table of commands.
use crate::arguments::Arguments;
use crate::table::{Choice, Command, COMMANDS, METHODS};
use crate::{files, Done};

pub fn run(mut arguments: Arguments) -> Done {
    let shell = arguments.word("SHELL")?;
    arguments.end()?;
    let text = match shell.to_str() {
        Some("bash") => bash(),
        Some("zsh") => zsh(),
        Some("fish") => fish(),
        _ => return Err(arguments.wrong(format!("SHELL is bash, zsh or fish, not {}", shell.to_string_lossy()))),
    };
    files::deliver(&arguments, None, text.as_bytes())
}

/// The names of all commands.
fn commands() -> String {
    let names: Vec<&str> = COMMANDS.iter().map(|command| command.name).collect();
    names.join(" ")
}

/// What may stand in a place that is called so: words to choose from, or a file.
enum Place {
    Words(String),
    File,
    Other,
}

fn place(what: &str) -> Place {
    match what {
        "METHOD" | "METHODS" => Place::Words(METHODS.join(" ")),
        "SHELL" => Place::Words("bash zsh fish".into()),
        "FILE" | "FILE.." | "CERTIFICATE" | "A" | "B" | "LIST" | "TEXT" => Place::File,
        _ => Place::Other,
    }
}

/// Every name of an option, long and short.
fn names(choice: &Choice) -> impl Iterator<Item = &'static str> {
    [Some(choice.name), choice.short].into_iter().flatten()
}

fn bash() -> String {
    let mut cases = String::new();
    for command in COMMANDS {
        let options: Vec<&str> = command.choices().flat_map(names).collect();
        let first = command.words.split(' ').next().unwrap_or_default();
        let words = if let Place::Words(words) = place(first) { words } else { String::new() };
        cases += &format!("    {}) options='{}' first='{words}' ;;\n", command.name, options.join(" "));
    }
    BASH.replace("COMMANDS", &commands()).replace("METHODS", &METHODS.join(" ")).replace("    CASES\n", &cases)
}

const BASH: &str = r#"# Completions of buulset for bash; `buulset completions bash` prints them.
_buulset() {
    local command= at=0 options= first= word=${COMP_WORDS[COMP_CWORD]} before=${COMP_WORDS[COMP_CWORD - 1]} k
    COMPREPLY=()
    for ((k = 1; k < COMP_CWORD; k++)); do
        case ${COMP_WORDS[k]} in -*) ;; *) command=${COMP_WORDS[k]} at=$k && break ;; esac
    done
    case $command in
    '') COMPREPLY=($(compgen -W 'COMMANDS help --help --version --quiet' -- "$word")) && return ;;
    help) COMPREPLY=($(compgen -W 'COMMANDS' -- "$word")) && return ;;
    CASES
    esac
    if [[ $before == --method || $before == --methods ]]; then
        COMPREPLY=($(compgen -W 'METHODS' -- "$word"))
    elif [[ $word == -* ]]; then
        COMPREPLY=($(compgen -W "$options --help" -- "$word"))
    elif [ -n "$first" ] && ((COMP_CWORD == at + 1)); then
        COMPREPLY=($(compgen -W "$first" -- "$word"))
    else
        compopt -o filenames 2>/dev/null
        COMPREPLY=($(compgen -f -- "$word"))
    fi
}
complete -F _buulset buulset
"#;

/// A text between single quotes.
fn quoted(text: &str) -> String {
    format!("'{}'", text.replace('\'', "'\\''"))
}

/// A description in an argument of zsh's `_arguments`, where brackets and colons have a meaning.
fn described(text: &str) -> String {
    text.chars().flat_map(|c| matches!(c, '[' | ']' | ':' | '\\').then_some('\\').into_iter().chain([c])).collect()
}

fn zsh() -> String {
    let list: String =
        COMMANDS.iter().map(|c| format!("    {}\n", quoted(&format!("{}:{}", c.name, c.does)))).collect();
    let mut cases = String::new();
    for command in COMMANDS {
        let mut lines: Vec<String> = command.choices().flat_map(|c| names(c).map(|name| zsh_option(c, name))).collect();
        lines.extend(command.words.split(' ').filter(|what| !what.is_empty()).map(zsh_word));
        cases += &format!("    {}) _arguments {} ;;\n", command.name, lines.join(" "));
    }
    ZSH.replace("    COMMANDS\n", &list).replace("    CASES\n", &cases)
}

fn zsh_option(choice: &Choice, name: &str) -> String {
    let value = choice.value.map_or(String::new(), |value| format!(":{value}:{}", zsh_action(value)));
    quoted(&format!("{name}[{}]{value}", described(choice.says)))
}

fn zsh_word(what: &str) -> String {
    let many = if what.ends_with("..") { "*" } else { "" };
    quoted(&format!("{many}:{}:{}", described(what), zsh_action(what)))
}

fn zsh_action(what: &str) -> String {
    match place(what) {
        Place::Words(words) => format!("({})", described(&words)),
        Place::File => "_files".into(),
        Place::Other => " ".into(),
    }
}

const ZSH: &str = r#"#compdef buulset
# Completions of buulset for zsh; `buulset completions zsh` prints them.
_buulset() {
    local -a commands
    commands=(
    COMMANDS
    )
    if ((CURRENT == 2)); then
        _describe command commands
        return
    fi
    local command=$words[2]
    shift words
    ((CURRENT--))
    case $command in
    help) _describe command commands ;;
    CASES
    esac
}
if [ "$funcstack[1]" = _buulset ]; then
    _buulset "$@"
else
    compdef _buulset buulset
fi
"#;

fn fish() -> String {
    let mut text = String::from(
        "# Completions of buulset for fish; `buulset completions fish` prints them.\n\
         complete -c buulset -n __fish_use_subcommand -f -l help -d 'all commands'\n\
         complete -c buulset -n __fish_use_subcommand -f -l version -d 'the versions of command and library'\n",
    );
    for command in COMMANDS {
        text += &format!(
            "complete -c buulset -n __fish_use_subcommand -f -a {} -d {}\n",
            command.name,
            quoted(command.does)
        );
        text += &fish_command(command);
    }
    text
}

fn fish_command(command: &Command) -> String {
    let start = format!("complete -c buulset -n '__fish_seen_subcommand_from {}'", command.name);
    let mut text = String::new();
    for choice in command.choices() {
        let short = choice.short.map_or(String::new(), |short| format!(" -s {}", &short[1..]));
        let value = match choice.value.map(place) {
            None => String::new(),
            Some(Place::File) => " -r -F".into(),
            Some(Place::Words(words)) => format!(" -x -a {}", quoted(&words)),
            Some(Place::Other) => " -x".into(),
        };
        text += &format!("{start}{short} -l {}{value} -d {}\n", &choice.name[2..], quoted(choice.says));
    }
    if let Place::Words(words) = place(command.words.split(' ').next().unwrap_or_default()) {
        text += &format!("{start} -a {}\n", quoted(&words));
    }
    text
}
