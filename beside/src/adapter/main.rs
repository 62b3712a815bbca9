//! Writes the present C entries over those of another library, and prints where these take other
//! parameters: adapter PRESENT OTHER OUT [--plant ENTRY]
//! PRESENT and OTHER are declarations, as in `ours/entries.rs`. An entry of the other library is
//! given each parameter by its name: the present entry's parameter of that name and type, or
//! else what `EXTRA` has for it. With `--plant` an entry leaves a wrong answer.
//! Exit status: 0 written, 2 an entry or a parameter is unknown.

mod declared;

use declared::{Entry, Parameter};
use std::fmt::Write;
use std::process::ExitCode;

/// Parameters that entries have at some commits and not at others, for where the present entry
/// has none of that name and type: the name, the type, and what is given, which may name
/// parameters of the present entry.
const EXTRA: &[(&str, &str, &str)] = &[
    ("quality", "u32", "0"), // a quality index, not read where from_quality is 0
    ("from_quality", "u8", "0"), // 0: the damping given is the signalled one
    ("unstated", "u8", "0"), // 0: a damping is given
];

/// The entries that are called for timing.
const CALLED: [&str; 14] = [
    "quern_direction",
    "quern_filter_block",
    "quern_trial_luma",
    "quern_trial_chroma",
    "quern_distance",
    "quern_squares",
    "quern_root",
    "quern_direction_pass",
    "quern_try_luma",
    "quern_try_chroma",
    "quern_measure_luma",
    "quern_measure_chroma",
    "quern_apply_luma",
    "quern_apply_chroma",
];

/// What the other library's parameter is given, and whether it is the present one of that name.
fn given(present: &Entry, p: &Parameter) -> Result<(String, bool), String> {
    if present.parameters.contains(p) {
        return Ok((p.name.clone(), true));
    }
    let mut extra = EXTRA.iter();
    if let Some((_, _, value)) = extra.find(|e| e.0 == p.name && e.1 == p.kind) {
        return Ok((value.to_string(), false));
    }
    let (entry, Parameter { name, kind }) = (&present.name, p);
    let why = match present.parameter(name) {
        Some(now) => format!("is now of type {}", now.kind),
        None => "is unknown".to_string(),
    };
    Err(format!(
        "{entry}: its parameter {name}: {kind} {why}; a line of EXTRA (beside/src/adapter/main.rs) can say what it is given"
    ))
}

/// One entry over another library's.
struct Adapted {
    text: String,
    /// What the other entry is given or not given that the present one is; empty where they
    /// take the same.
    otherwise: String,
}

fn adapted(present: &Entry, other: &Entry, planted: bool) -> Result<Adapted, String> {
    if present.result != other.result {
        let (name, result) = (&present.name, &other.result);
        return Err(format!(
            "{name} returns {result}, and not {}",
            present.result
        ));
    }
    let (mut list, mut notes) = (Vec::new(), Vec::new());
    for p in &other.parameters {
        let (value, same) = given(present, p)?;
        if !same {
            notes.push(format!("{} = {value}", p.name));
        }
        list.push(value);
    }
    let dropped = present.parameters.iter().map(|p| &p.name);
    let dropped = dropped.filter(|name| other.parameter(name).is_none());
    notes.extend(dropped.map(|name| format!("no {name}")));
    Ok(Adapted {
        text: definition(present, &list.join(", "), planted)?,
        otherwise: notes.join(", "),
    })
}

/// The present entry, which calls the other library's with the arguments listed. Planted, it
/// adds 1 to the first number that the call writes.
fn definition(present: &Entry, list: &str, planted: bool) -> Result<String, String> {
    let (signature, name) = (present.signature(), &present.name);
    let mut text = String::new();
    let _ = writeln!(text, "#[inline]\npub unsafe extern \"C\" fn {signature} {{");
    let _ = writeln!(
        text,
        "    let number = unsafe {{ library::{name}({list}) }};"
    );
    if planted {
        let mut all = present.parameters.iter();
        let written = all.find(|p| p.kind.starts_with("*mut"));
        let written = written.ok_or(format!("{name} writes nothing to plant in"))?;
        let p = &written.name;
        let _ = writeln!(text, "    unsafe {{ *{p} = (*{p}).wrapping_add(1) }};");
    }
    let _ = writeln!(text, "    number\n}}");
    Ok(text)
}

/// The file, and a line for each way in which entries take other parameters.
fn file(present: &str, other: &str, plant: Option<&str>) -> Result<(String, Vec<String>), String> {
    let (present, other) = (declared::entries(present), declared::entries(other));
    let find = |list: &[Entry], name: &str| list.iter().position(|e| e.name == name);
    if let Some(name) = plant.filter(|name| !CALLED.contains(name)) {
        return Err(format!("{name} is not an entry that is called"));
    }
    let (mut declared, mut defined) = (String::new(), String::new());
    let mut notes: Vec<(String, Vec<&str>)> = Vec::new();
    for name in CALLED {
        let place = find(&present, name).ok_or(format!("{name} is not declared now"))?;
        let at = find(&other, name).ok_or(format!("{name} is not declared in that commit"))?;
        let of = adapted(&present[place], &other[at], plant == Some(name))?;
        let _ = writeln!(declared, "        pub fn {};", other[at].signature());
        defined += &of.text;
        match notes.iter_mut().find(|(note, _)| *note == of.otherwise) {
            Some((_, names)) => names.push(name),
            None => notes.push((of.otherwise, vec![name])),
        }
    }
    let text = format!(
        "mod library {{\n    #[link(name = \"cdef_c\", kind = \"static\")]\n    unsafe extern \"C\" {{\n{declared}    }}\n}}\n{defined}"
    );
    let notes = notes.into_iter().filter(|(note, _)| !note.is_empty());
    let notes = notes.map(|(note, names)| format!("{note}: {}", names.join(", ")));
    Ok((text, notes.collect()))
}

fn run(words: &[&str]) -> Result<(), String> {
    let (paths, plant) = match *words {
        [present, other, out] => ([present, other, out], None),
        [present, other, out, "--plant", entry] => ([present, other, out], Some(entry)),
        _ => return Err("PRESENT OTHER OUT [--plant ENTRY]".to_string()),
    };
    let read = |path| std::fs::read_to_string(path).map_err(|e| format!("{path}: {e}"));
    let (text, notes) = file(&read(paths[0])?, &read(paths[1])?, plant)?;
    for note in notes {
        println!("{note}");
    }
    std::fs::write(paths[2], text).map_err(|e| format!("{}: {e}", paths[2]))
}

fn main() -> ExitCode {
    let words: Vec<String> = std::env::args().skip(1).collect();
    let words: Vec<&str> = words.iter().map(String::as_str).collect();
    match run(&words) {
        Ok(()) => ExitCode::SUCCESS,
        Err(why) => {
            eprintln!("adapter: {why}");
            ExitCode::from(2)
        }
    }
}
