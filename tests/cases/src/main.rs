//! Writes the data folders, the expected output and the list of cases of the programs under crates/, from the project's root:
//! `cargo run --manifest-path tests/cases/Cargo.toml`. What is expected comes from the second program alone.

mod table;
mod texts;

use std::fs;
use std::path::Path;

use second::program::output;
use table::{cases, p5, Case, File};

/// The file as a case has it, and the bytes that the program reads of it.
fn write(path: &Path, file: &File) -> Vec<u8> {
    match file {
        File::Text(text) => {
            fs::write(path, text).expect("a data file");
            text.clone().into_bytes()
        }
        File::Missing => Vec::new(),
        File::Folder => {
            fs::create_dir_all(path).expect("a data folder");
            fs::write(path.join("note"), "The sheet is a folder.\n").expect("a data file");
            Vec::new()
        }
    }
}

/// The test program, up to the folders that it names and from there on.
const HEAD: &str = "// Every case folder: its name, and what is printed for its two sheets. Written by tests/cases.
#![tactic(auto)]

mod path;

use path::joined;
use std::io;
use std::rt::Files;

";
const TAIL: &str = "
fn case<R: Files + Print>(rt: &R, folder: &str) -> io::Result<()> {
    println!(rt; \"{folder}\")?;
    let mut on = [0; 64];
    let ons = joined(folder.as_bytes(), b\"/on.cnf\", &mut on);
    let mut off = [0; 64];
    let offs = joined(folder.as_bytes(), b\"/off.cnf\", &mut off);
    running::run(rt, &on[..ons], &off[..offs]);
    Ok(())
}

fn main(rt: HostRuntime) -> io::Result<()> {
    for folder in FOLDERS {
        case(&rt, folder)?;
    }
    Ok(())
}
";

fn program(cases: &[Case]) -> String {
    let folders: String = cases.iter().map(|case| format!("    \"{}\",\n", case.name)).collect();
    format!("{HEAD}const FOLDERS: [&str; {}] = [\n{folders}];\n{TAIL}", cases.len())
}

fn main() {
    let test = Path::new("crates/glimmeldoek_test");
    let data = test.join("data");
    let _ = fs::remove_dir_all(&data);
    let mut expected = Vec::new();
    let cases = cases();
    for case in &cases {
        let folder = data.join(case.name);
        fs::create_dir_all(&folder).expect("a case folder");
        let on = write(&folder.join("on.cnf"), &case.on);
        let off = write(&folder.join("off.cnf"), &case.off);
        if let (File::Missing, File::Missing) = (&case.on, &case.off) {
            fs::write(folder.join("note"), "Both sheets are missing.\n").expect("a data file");
        }
        expected.extend_from_slice(format!("{}\n", case.name).as_bytes());
        expected.extend_from_slice(&output(&on, &off));
    }
    fs::write(test.join("stdout"), expected).expect("the expected output");
    fs::write(test.join("src/main.rt"), program(&cases)).expect("the test program");

    let one = Path::new("crates/glimmeldoek");
    let (on, off) = p5();
    fs::create_dir_all(one.join("data")).expect("a data folder");
    fs::write(one.join("data/on.cnf"), &on).expect("a data file");
    fs::write(one.join("data/off.cnf"), &off).expect("a data file");
    fs::write(one.join("stdout"), output(on.as_bytes(), off.as_bytes())).expect("the expected output");
}
