//! `listing FILE ..` prints the functions of files by typed views, a line each: the name, the parameters with their types,
//! the type of the result, and how many lines the function has.
mod common;

use rap_tree::ast::{self, AstNode, HasName};
use rap_tree::{Edition, TopEntryPoint, Tree};
use std::io::Write as _;
use std::process::ExitCode;

const USAGE: &str = "usage: listing FILE ..";

/// What is printed of a function. None of one without a name.
fn line(function: ast::Fn<'_>) -> Option<String> {
    let params = function.param_list().into_iter().flat_map(|it| it.params());
    let params = params.filter_map(|it| Some(format!("{}: {}", it.pat()?, it.ty()?)));
    let own = function.param_list().and_then(|it| it.self_param()).map(|it| it.to_string());
    let params = own.into_iter().chain(params).collect::<Vec<_>>().join(", ");
    let result = function.ret_type().and_then(|it| it.ty()).map_or_else(|| "()".into(), |it| it.to_string());
    let lines = function.syntax().text().lines().count();
    Some(format!("{}({params}) -> {result}: {lines}", function.name()?))
}

fn main() -> ExitCode {
    common::run(USAGE, |files, out| {
        if files.is_empty() {
            return Err(USAGE.into());
        }
        for file in files {
            let tree = Tree::of_text(Edition::LATEST, TopEntryPoint::SourceFile, common::read(file)?);
            for line in tree.root().descendants().filter_map(ast::Fn::cast).filter_map(line) {
                writeln!(out, "{line}")?;
            }
        }
        Ok(ExitCode::SUCCESS)
    })
}
