//! The command `draw`.
use crate::arguments::Arguments;
use crate::commands::{certificate, once, refused_certificate, searched, tree};
use crate::{files, names::Names, picture, plan::Plan, run::Run, Done, Failure};
use std::ffi::{OsStr, OsString};

/// The rows of a picture where nothing is said: one page of A4.
const ROWS: usize = 40;

pub fn run(mut arguments: Arguments) -> Done {
    arguments.exclude("--all", "--rows")?;
    let rows = arguments.optional("--rows")?.unwrap_or(ROWS);
    let name = arguments.last_file()?;
    let option = |what| arguments.option(what).map(OsStr::to_os_string);
    let (proof, moves) = (option("--certificate"), option("--names"));
    let inputs = [Some(&name), proof.as_ref(), moves.as_ref()];
    once(&arguments, inputs.iter().flatten().filter(|n| **n == "-").count())?;
    let method = match (option("--method"), &proof) {
        (None, None) => Some("sss".into()),
        (method, _) => method,
    };
    let tree = tree(&name)?;
    let plan = Plan::new(&tree);
    let searched = |method: &OsString| -> Result<Run, Failure> {
        Ok(Run::new(&tree, &plan, &method.to_string_lossy(), searched(&arguments, method, &tree)?))
    };
    let run = method.as_ref().map(searched).transpose()?;
    let flags = proof.as_ref().map(|p| certificate(p)).transpose()?;
    if let (Some(flags), Some(proof)) = (&flags, &proof) {
        tree.verify(flags).map_err(refused_certificate(&tree, flags, files::shown(proof)))?;
    }
    let of = picture::Subject {
        file: files::base(&name),
        run: run.as_ref(),
        certificate: flags.as_deref(),
        root_move: tree.sss().found.root_move,
        names: &Names::read(moves.as_deref(), tree.nodes())?,
        rows,
        all: arguments.has("--all"),
    };
    files::deliver(&arguments, None, picture::svg(&tree, &plan, &of).as_bytes())
}
