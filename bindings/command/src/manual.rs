//! The manual page, made of the table of commands.
use crate::arguments::Arguments;
use crate::table::{Choice, Command, COMMANDS, QUIET};
use crate::{files, help, Done};

pub fn run(mut arguments: Arguments) -> Done {
    arguments.end()?;
    files::deliver(&arguments, None, page().as_bytes())
}

fn page() -> String {
    let mut page = format!(".TH BUULSET 1 \"\" \"buulset {}\" \"User commands\"\n{HEAD}", env!("CARGO_PKG_VERSION"));
    page += ".SH COMMANDS\n";
    page.extend(COMMANDS.iter().map(command));
    page += ".SH OPTIONS\n";
    page += &item(&option_name(&QUIET), QUIET.says);
    page += &item("\\fB\\-h\\fR, \\fB\\-\\-help\\fR", "The help of a command, with examples.");
    page += &item(
        "\\fB\\-V\\fR, \\fB\\-\\-version\\fR",
        "The versions of the command and of the library, the commit and the kit.",
    );
    page += ".SH EXIT STATUS\n";
    page.extend(help::STATUSES.iter().map(|(number, meaning)| item(&format!("\\fB{number}\\fR"), meaning)));
    page += NOTES;
    page += ".SH EXAMPLES\n.nf\n";
    page.extend(COMMANDS.iter().flat_map(|c| c.examples).map(|example| escaped(example) + "\n"));
    page + ".fi\n"
}

const HEAD: &str = "\
.SH NAME
buulset \\- proved minimax searches of analysis trees
.SH SYNOPSIS
.B buulset
.I COMMAND ARGUMENT\\fR..
.SH DESCRIPTION
Reads tree files, makes the proved calls of the library, and prints what they give.
A tree file has a line of twelve capital hexadecimal digits for each node, in breadth\\-first order from the root,
node 0.
Where a \\fIFILE\\fR is wanted, \\fB\\-\\fR is standard input, once; so is a last \\fIFILE\\fR that is not named, if
standard input is a pipe or a file.
\\fIMETHOD\\fR is \\fBab\\fR (alpha\\-beta), \\fBmtd\\fR, \\fBmtdf:\\fIN\\fR (MTD(f) from the value \\fIN\\fR, a guess),
\\fBsss\\fR (SSS*) or \\fBplain\\fR (minimax without cuts).
Numbers may have commas at the thousands, as in 32,000.
";

const NOTES: &str = "\
.PP
Of one refused file the line \\fBrefused\\fR, the number of a question and a place stand alone on standard output, and
standard error says what is usually meant. Of several files the status is 1 if any was refused.
A pipe that nobody reads any more ends the command quietly, with 0.
.SH NOTES
A file is never to be redirected onto itself, as in \\fBset e.tree 4 5 > e.tree\\fR: the shell empties it before the
command begins. \\fB\\-\\-in\\-place\\fR and \\fB\\-o\\fR write a file only when the result is there, whole or not
at all; an interrupted run leaves the old file or the new one, and no other.
";

/// A command: its words and options, what it does, and each option.
fn command(command: &Command) -> String {
    let options: String = command.options.iter().map(|choice| format!(" [{}]", escaped(&choice.usage()))).collect();
    let words = if command.words.is_empty() { String::new() } else { format!(" \\fI{}\\fR", escaped(command.words)) };
    let mut text = item(&format!("\\fB{}\\fR{words}{options}", command.name), command.about);
    if !command.options.is_empty() {
        text += ".RS\n";
        text.extend(command.options.iter().map(|choice| item(&option_name(choice), choice.says)));
        text += ".RE\n";
    }
    text
}

fn option_name(choice: &Choice) -> String {
    let short = choice.short.map_or(String::new(), |short| format!("\\fB{}\\fR, ", escaped(short)));
    let value = choice.value.map_or(String::new(), |value| format!(" \\fI{}\\fR", escaped(value)));
    format!("{short}\\fB{}\\fR{value}", escaped(choice.name))
}

/// A paragraph with a tag before it.
fn item(tag: &str, text: &str) -> String {
    let paragraph = |text| match str::starts_with(text, help::AS_IT_IS) {
        true => format!(".nf\n{}\n.fi", escaped(text)),
        false => escaped(text),
    };
    let paragraphs: Vec<String> = text.split("\n\n").map(paragraph).collect();
    format!(".TP\n{tag}\n{}\n", paragraphs.join("\n.IP\n"))
}

/// A text as it stands for itself in a page.
fn escaped(text: &str) -> String {
    let lines: Vec<String> = text
        .lines()
        .map(|line| {
            let line = line.replace('\\', "\\e").replace('-', "\\-");
            if line.starts_with(['.', '\'']) {
                format!("\\&{line}")
            } else {
                line
            }
        })
        .collect();
    lines.join("\n")
}
