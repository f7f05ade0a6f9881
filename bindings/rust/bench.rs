//! Times this package and the package `rap_tree`, and beside them the Rust crate and syn where they are linked, in one
//! process and on the same texts.
//!
//! Each text is read by each parser in turn, several rounds over, and the least time of a text counts. The package and
//! the Rust crate go from the text to the steps of the tree, by `LexedStr::new`, `to_input`, `parse` and
//! `intersperse_trivia`, and write each step into memory that is kept; `rap_tree` and syn build trees of their own and
//! drop them. Beside these both list the functions of a text, by typed views and by `Visit`, and must count the same. At
//! the end an accessor is timed beside a loop over children.
use std::hint::black_box;
use std::time::{Duration, Instant};

/// A step, as whoever builds a tree takes it: a number for what it is, and the bytes of its text.
type Taken = (u32, usize, usize);

type Function<'t> = rap_tree::ast::Fn<'t>;

type Parser = fn(&str, &mut Vec<Taken>) -> Option<usize>;

/// Makes a function that goes the whole way with a crate of these names.
macro_rules! parser {
    ($name:ident, $parser:ident) => {
        fn $name(text: &str, steps: &mut Vec<Taken>) -> Option<usize> {
            use $parser::{Edition, LexedStr, StrStep, TopEntryPoint};
            let lexed = LexedStr::new(Edition::LATEST, text);
            let output = TopEntryPoint::SourceFile.parse(&lexed.to_input(Edition::LATEST));
            steps.clear();
            let mut place = 0;
            lexed.intersperse_trivia(&output, &mut |step| {
                let begin = place;
                let what = match step {
                    StrStep::Enter { kind } => 1 + kind as u32,
                    StrStep::Exit => 0,
                    StrStep::Token { kind, text } => {
                        place += text.len();
                        1 + kind as u32
                    }
                    StrStep::Error { .. } => u32::MAX,
                };
                steps.push((what, begin, place));
            });
            Some(steps.len())
        }
    };
}

parser!(by_package, package);
#[cfg(feature = "original")]
parser!(by_crate, original);

fn by_tree(text: &str, _steps: &mut Vec<Taken>) -> Option<usize> {
    use rap_tree::{Edition, TopEntryPoint, Tree};
    let tree = Tree::of_text(Edition::LATEST, TopEntryPoint::SourceFile, text);
    Some(black_box(&tree).root().descendants_with_tokens().len())
}

#[cfg(feature = "syn")]
fn by_syn(text: &str, _steps: &mut Vec<Taken>) -> Option<usize> {
    let file = syn_crate::parse_file(text).ok()?;
    Some(black_box(&file).items.len())
}

/// How many functions a text has, their parameters, and their types of results, by typed views.
fn listed_by_views(text: &str, _steps: &mut Vec<Taken>) -> Option<usize> {
    use rap_tree::ast::AstNode;
    use rap_tree::{Edition, TopEntryPoint, Tree};
    let tree = Tree::of_text(Edition::LATEST, TopEntryPoint::SourceFile, text);
    let parts = |function: Function<'_>| {
        let params = function.param_list().map_or(0, |it| usize::from(it.self_param().is_some()) + it.params().count());
        1 + params + usize::from(function.ret_type().is_some())
    };
    Some(tree.root().descendants().filter_map(Function::cast).map(parts).sum())
}

/// The same by syn.
#[cfg(feature = "syn")]
fn listed_by_syn(text: &str, _steps: &mut Vec<Taken>) -> Option<usize> {
    use syn_crate::visit::{Visit, visit_signature};
    struct Listed(usize);
    impl<'ast> Visit<'ast> for Listed {
        fn visit_signature(&mut self, it: &'ast syn_crate::Signature) {
            let params = it.inputs.len() + usize::from(it.variadic.is_some());
            self.0 += 1 + params + usize::from(matches!(it.output, syn_crate::ReturnType::Type(..)));
            visit_signature(self, it);
        }
    }
    let mut listed = Listed(0);
    listed.visit_file(&syn_crate::parse_file(text).ok()?);
    Some(listed.0)
}

/// The parsers that are linked, the package first, and the listings of functions.
fn parsers() -> Vec<(&'static str, Parser)> {
    vec![
        ("package", by_package),
        ("rap_tree", by_tree),
        #[cfg(feature = "original")]
        ("Rust crate", by_crate),
        #[cfg(feature = "syn")]
        ("syn", by_syn),
        ("rap_tree, and functions by views", listed_by_views),
        #[cfg(feature = "syn")]
        ("syn, and functions by Visit", listed_by_syn),
    ]
}

/// Which parsers give the same number: those whose steps are counted, and those that list functions.
fn counted(name: &str) -> Option<Parser> {
    match name {
        "rap_tree" | "syn" => None,
        _ if name.contains("functions") => Some(listed_by_views),
        _ => Some(by_package),
    }
}

/// The least time of each parser, if all of them take the text.
fn times_of(text: &str, rounds: usize, steps: &mut Vec<Taken>, parsers: &[(&str, Parser)]) -> Option<Vec<Duration>> {
    let wanted: Vec<_> = parsers.iter().map(|(name, _)| counted(name).and_then(|parse| parse(text, steps))).collect();
    let mut least = vec![Duration::MAX; parsers.len()];
    for _ in 0..rounds {
        for (i, (name, parse)) in parsers.iter().enumerate() {
            let begin = Instant::now();
            let count = black_box(parse(black_box(text), steps));
            least[i] = least[i].min(begin.elapsed());
            let count = count?;
            assert!(wanted[i].is_none_or(|want| want == count), "{name} counts {count}, and not {:?}", wanted[i]);
        }
    }
    Some(least)
}

/// How long it takes to look for something in each of some functions, in nanoseconds: the least of some rounds.
fn each<'t, T>(rounds: usize, functions: &[Function<'t>], look: impl Fn(Function<'t>) -> T) -> f64 {
    let time = |_| {
        let begin = Instant::now();
        functions.iter().for_each(|it| drop(black_box(look(black_box(*it)))));
        begin.elapsed()
    };
    let least = (0..rounds).map(time).min().unwrap_or_default();
    least.as_secs_f64() * 1e9 / functions.len().max(1) as f64
}

/// The first child of a function that is of a kind.
fn by_kind<'t>(function: Function<'t>, kind: rap_tree::SyntaxKind) -> Option<rap_tree::Node<'t>> {
    rap_tree::ast::AstNode::syntax(function).children().find(|it| it.kind() == kind)
}

/// Prints how long an accessor takes, and the loop over the children by their kinds that it stands for.
fn print_accessors(rounds: usize, files: &[String]) {
    use rap_tree::ast::{AstNode, HasName};
    use rap_tree::{Edition, SyntaxKind, TopEntryPoint, Tree};
    let texts = files.iter().filter_map(|file| std::fs::read_to_string(file).ok());
    let trees: Vec<Tree> = texts.map(|text| Tree::of_text(Edition::LATEST, TopEntryPoint::SourceFile, text)).collect();
    let functions: Vec<Function<'_>> =
        trees.iter().flat_map(|tree| tree.root().descendants().filter_map(Function::cast)).collect();
    let name = [each(rounds, &functions, |it| it.name()), each(rounds, &functions, |it| by_kind(it, SyntaxKind::NAME))];
    let body =
        [each(rounds, &functions, |it| it.body()), each(rounds, &functions, |it| by_kind(it, SyntaxKind::BLOCK_EXPR))];
    println!("{} functions; name(): {:.1} ns, by kinds {:.1}", functions.len(), name[0], name[1]);
    println!("body(): {:.1} ns, by kinds {:.1}", body[0], body[1]);
}

fn run() {
    let mut words = std::env::args().skip(1);
    let rounds = words.next().and_then(|word| word.parse().ok()).expect("the number of rounds comes first");
    let parsers = parsers();
    let (mut files, mut bytes, mut left_out, mut steps) = (0, 0, 0, Vec::new());
    let mut sums = vec![Duration::ZERO; parsers.len()];
    let names: Vec<String> = words.collect();
    for file in &names {
        let text = std::fs::read_to_string(file).ok();
        match text.as_ref().and_then(|text| times_of(text, rounds, &mut steps, &parsers)) {
            Some(times) => {
                files += 1;
                bytes += text.map_or(0, |text| text.len());
                sums.iter_mut().zip(times).for_each(|(sum, time)| *sum += time);
            }
            None => left_out += 1,
        }
    }
    println!("{files} files, {bytes} bytes; {left_out} left out");
    for ((name, _), sum) in parsers.iter().zip(&sums) {
        let seconds = sum.as_secs_f64();
        let speed = bytes as f64 / 1e6 / seconds;
        let ratios = [sums[0], sums[1]].map(|sum| sum.as_secs_f64() / seconds);
        let shown = format!("the package takes {:.3} of it, rap_tree {:.3}", ratios[0], ratios[1]);
        println!("{name}: {:.1} ms, {speed:.1} MB/s; {shown}", 1e3 * seconds);
    }
    print_accessors(rounds, &names);
}

fn main() {
    // Texts that nest take stack.
    let thread = std::thread::Builder::new().stack_size(1 << 30).spawn(run);
    thread.expect("there is room for a stack").join().expect("the run ends");
}
