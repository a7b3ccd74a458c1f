//! The command line. Each verb's own arguments stand in its module.

use crate::colour::{Colour, When};
use crate::end::{Failure, Verdict};
use crate::{cat, explain, extends, make, out, root, show, store, verify};
use clap::{CommandFactory, Parser, Subcommand};
use clap_complete::Shell;

const AFTER: &str = "\
Exit status:
  0    all is right
  1    something is wrong, missing or not believed
  2    usage, or a file can't be read or written
  3    refused by the library, with its number
  141  the reader of the output has gone";

/// Torrents and files in hand, judged by the proved library
#[derive(Parser)]
#[command(name = "kd", version, after_help = AFTER, arg_required_else_help = true, disable_help_subcommand = true)]
pub struct Cli {
    /// Colours
    #[arg(long, global = true, value_name = "WHEN", default_value = "auto")]
    color: When,
    #[command(subcommand)]
    verb: Verb,
}

#[derive(Subcommand)]
enum Verb {
    Show(show::Args),
    Verify(verify::Args),
    Cat(cat::Args),
    Make(make::Args),
    Root(root::Args),
    Store(store::Args),
    Extends(extends::Args),
    Explain(explain::Args),
    /// Write the completion of a shell to standard output
    #[command(hide = true)]
    Completions {
        shell: Shell,
    },
}

pub fn run(cli: Cli) -> Result<Verdict, Failure> {
    let colour = Colour::new(cli.color);
    match &cli.verb {
        Verb::Show(args) => show::run(args),
        Verb::Verify(args) => verify::run(args, colour),
        Verb::Cat(args) => cat::run(args),
        Verb::Make(args) => make::run(args),
        Verb::Root(args) => root::run(args),
        Verb::Store(args) => store::run(args, colour),
        Verb::Extends(args) => extends::run(args, colour),
        Verb::Explain(args) => explain::run(args),
        Verb::Completions { shell } => completions(*shell),
    }
}

fn completions(shell: Shell) -> Result<Verdict, Failure> {
    let mut script = Vec::new();
    clap_complete::generate(shell, &mut Cli::command(), "kd", &mut script);
    out::bytes(&script)?;
    Ok(Verdict::Right)
}

#[cfg(test)]
mod tests {
    use super::*;

    #[test]
    fn the_command_line_is_sound() {
        Cli::command().debug_assert();
    }

    #[test]
    fn the_man_page_has_every_verb_and_option() {
        let page = include_str!("../kd.1");
        let mut command = Cli::command();
        command.build();
        for verb in command.get_subcommands().filter(|verb| !verb.is_hide_set()) {
            assert!(page.contains(&format!(".It Cm {}", verb.get_name())), "verb {}", verb.get_name());
            for long in verb.get_arguments().filter_map(|option| option.get_long()) {
                assert!(["help", "version"].contains(&long) || page.contains(&format!("Fl -{long}")), "option {long}");
            }
        }
    }
}
