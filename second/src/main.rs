//! The command line.

use second::print::{read_files, refused, verdict_of_folder};
use second::read::read_input;
use second::{gen, show, stream, text};
use std::io::{self, Write};
use std::path::Path;
use std::process::ExitCode;

const USAGE: &str = "usage: second run DIR
       second batch
       second gen SEED COUNT KIND
       second text FILE OUTDIR
       second show DIR
KIND is small, protocol, closed, damage, room, check, hostile or all
";

fn main() -> ExitCode {
    let args: Vec<String> = std::env::args_os()
        .skip(1)
        .map(|a| a.to_string_lossy().into_owned())
        .collect();
    let words: Vec<&str> = args.iter().map(String::as_str).collect();
    let done = match words[..] {
        ["run", folder] => print(&verdict_of_folder(Path::new(folder))),
        ["batch"] => batch(),
        ["gen", seed, count, kind] => match (seed.parse(), count.parse(), gen::kind(kind)) {
            (Ok(seed), Ok(count), Some(kind)) => generate(seed, count, kind),
            _ => return usage(),
        },
        ["text", file, folder] => from_text(Path::new(file), Path::new(folder)),
        ["show", folder] => to_text(Path::new(folder)),
        _ => return usage(),
    };
    match done {
        Ok(()) => ExitCode::SUCCESS,
        Err(what) => {
            let _ = writeln!(io::stderr(), "second: {what}");
            ExitCode::from(1)
        }
    }
}

fn usage() -> ExitCode {
    let _ = io::stderr().write_all(USAGE.as_bytes());
    ExitCode::from(2)
}

fn print(text: &str) -> Result<(), String> {
    let mut out = io::stdout().lock();
    let done = out.write_all(text.as_bytes()).and_then(|()| out.flush());
    done.map_err(|e| e.to_string())
}

fn batch() -> Result<(), String> {
    let input = io::BufReader::new(io::stdin().lock());
    let output = io::BufWriter::new(io::stdout().lock());
    stream::answer_all(input, output).map_err(|e| e.to_string())
}

fn generate(seed: u64, count: u64, kind: gen::Kind) -> Result<(), String> {
    let mut out = io::BufWriter::new(io::stdout().lock());
    for n in 0..count {
        let case = gen::case(seed, n, kind);
        out.write_all(&case.bytes()).map_err(|e| e.to_string())?;
    }
    out.flush().map_err(|e| e.to_string())
}

fn from_text(file: &Path, folder: &Path) -> Result<(), String> {
    let bytes = std::fs::read(file).map_err(|e| format!("{}: {e}", file.display()))?;
    let tables = text::parse(&bytes)
        .map_err(|f| format!("{}:{}:{}: {}", file.display(), f.line, f.column, f.what))?;
    let write = || -> io::Result<()> {
        std::fs::create_dir_all(folder)?;
        std::fs::write(folder.join("symbols"), &tables.symbols)?;
        std::fs::write(folder.join("rules"), &tables.rules)?;
        std::fs::write(folder.join("query"), &tables.query)
    };
    write().map_err(|e| format!("{}: {e}", folder.display()))
}

fn to_text(folder: &Path) -> Result<(), String> {
    let read = read_files(folder).and_then(|[s, r, q]| read_input(&s, &r, &q));
    match read {
        Ok(input) => print(&show::show(&input)),
        Err(refusal) => Err(refused(refusal).trim_end().to_string()),
    }
}
