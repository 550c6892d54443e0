//! Wrong rules: each is a small edit of the second monitor, which the comparison must find. What was asked and answered is kept in files, so that each is answered again alone.
use std::fs;
use std::path::{Path, PathBuf};
use std::process::{exit, Command, Stdio};
use std::sync::atomic::{AtomicUsize, Ordering};

/// A name, and texts that stand for others in a file.
struct Mutant {
    name: String,
    edits: Vec<(String, String, String)>,
}

/// The file's blocks: `# name`, then for each edit the file's name, lines with `- ` for the old text and lines with `+ ` for the new, which may be parts of lines; `//` begins a remark.
fn mutants(text: &str) -> Vec<Mutant> {
    let mut all: Vec<Mutant> = Vec::new();
    for line in text.lines().filter(|line| !line.starts_with("//")) {
        let (sign, rest) = line.split_at(line.len().min(1));
        match sign {
            "#" => all.push(Mutant { name: rest.trim().to_string(), edits: Vec::new() }),
            "-" | "+" => {
                let edit = all.last_mut().and_then(|mutant| mutant.edits.last_mut()).expect("an edit begins with its file");
                let side = if sign == "-" { &mut edit.1 } else { &mut edit.2 };
                if !side.is_empty() {
                    side.push('\n');
                }
                side.push_str(rest.strip_prefix(' ').unwrap_or(rest));
            }
            "" => {}
            _ => all.last_mut().expect("a mutant begins with its name").edits.push((line.to_string(), String::new(), String::new())),
        }
    }
    all
}

/// The sources in the folder, edited and compiled. What the compiler keeps there from the mutant before makes the next one cheap.
fn built(mutant: &Mutant, source: &Path, library: &str, folder: &Path) -> Result<PathBuf, String> {
    fs::create_dir_all(folder).unwrap();
    for file in fs::read_dir(source).unwrap().map(|file| file.unwrap().path()).filter(|file| file.is_file()) {
        fs::copy(&file, folder.join(file.file_name().unwrap())).unwrap();
    }
    for (file, old, new) in &mutant.edits {
        let place = folder.join(file);
        let text = fs::read_to_string(&place).map_err(|e| format!("{file}: {e}"))?;
        if text.matches(old.as_str()).count() != 1 {
            return Err(format!("the old text does not stand once in {file}"));
        }
        fs::write(&place, text.replacen(old.as_str(), new, 1)).unwrap();
    }
    // hashing is slow where it is not optimised, and no rule: it comes from the library as it stands
    for name in ["sha1", "digest"] {
        fs::write(folder.join(name).with_extension("rs"), format!("pub use second::{name}::*;\n")).unwrap();
    }
    let root = fs::read_to_string(folder.join("lib.rs")).unwrap() + "fn main() -> std::io::Result<()> { program::run() }\n";
    fs::write(folder.join("root.rs"), root).unwrap();
    let words = ["--edition", "2021", "--cap-lints", "allow", "-C", "incremental=kept", "--extern", &format!("second={library}"), "root.rs", "-o", "root"];
    let done = Command::new("rustc").current_dir(folder).args(words).output().expect("rustc");
    if done.status.success() {
        Ok(folder.join("root"))
    } else {
        Err(String::from_utf8_lossy(&done.stderr).into_owned())
    }
}

/// The first line that the program answers otherwise than the proved one did; files whose name begins with `calls` are scripts. To end early is no answer.
fn found(program: &Path, files: &[PathBuf]) -> Result<String, String> {
    for file in files {
        let name = file.file_stem().unwrap().to_string_lossy().into_owned();
        let script: &[&str] = if name.starts_with("calls") { &["calls"] } else { &[] };
        let output = Command::new(program).args(script).stdin(fs::File::open(file).unwrap()).stderr(Stdio::null()).output().expect("the mutant");
        let (asked, proved) = (fs::read(file).unwrap(), fs::read(file.with_extension("out")).unwrap());
        let differ = lines(&output.stdout).iter().zip(lines(&proved)).position(|(x, y)| *x != y);
        match differ {
            Some(at) => return Ok(format!("{name}, line {}: {}", at + 1, lines(&asked)[at].chars().take(60).collect::<String>())),
            None if output.stdout != proved => return Err(format!("ends early in {name}")),
            None => {}
        }
    }
    Err("NOT FOUND".to_string())
}

fn lines(text: &[u8]) -> Vec<String> {
    text.split_inclusive(|byte| *byte == b'\n').filter(|line| line.ends_with(b"\n")).map(|line| String::from_utf8_lossy(&line[..line.len() - 1]).into_owned()).collect()
}

/// Builds each mutant of that file and holds it to what was kept in the folder. `library` is the one built of the sources as they stand.
pub fn find_all(file: &str, source: &str, library: &str, kept: &str) {
    let library = fs::canonicalize(library).expect("the library").display().to_string();
    let all = mutants(&fs::read_to_string(file).expect("the file of mutants"));
    let mut files: Vec<PathBuf> = fs::read_dir(kept).unwrap().map(|file| file.unwrap().path()).filter(|file| file.extension().map_or(false, |end| end == "in")).collect();
    // most are found by the first trace, the others by the scripts
    let name = |file: &PathBuf| file.file_stem().unwrap().to_string_lossy().into_owned();
    files.sort_by_key(|file| (name(file) != "lines-00", name(file)));
    let (next, missed) = (AtomicUsize::new(0), AtomicUsize::new(0));
    let work = |folder: PathBuf| {
        while let Some(mutant) = all.get(next.fetch_add(1, Ordering::SeqCst)) {
            let said = built(mutant, Path::new(source), &library, &folder).and_then(|program| found(&program, &files));
            missed.fetch_add(said.is_err() as usize, Ordering::SeqCst);
            println!("  {}: {}", mutant.name, said.unwrap_or_else(|error| error));
        }
    };
    let processors = std::thread::available_parallelism().map_or(1, |n| n.get());
    std::thread::scope(|scope| {
        for i in 0..processors {
            let (work, folder) = (&work, Path::new(kept).join(format!("worker-{i}")));
            scope.spawn(move || work(folder));
        }
    });
    let missed = missed.into_inner();
    println!("mutants: {} of {} found", all.len() - missed, all.len());
    if missed > 0 || all.is_empty() {
        exit(1);
    }
}
