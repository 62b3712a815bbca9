//! Declarations of C entries in Rust, read from text.

/// A parameter's name and type.
#[derive(Clone, PartialEq)]
pub struct Parameter {
    pub name: String,
    pub kind: String,
}

pub struct Entry {
    pub name: String,
    pub parameters: Vec<Parameter>,
    pub result: String,
}

impl Entry {
    /// As `name(parameter: type, ..) -> type`.
    pub fn signature(&self) -> String {
        let of = |p: &Parameter| format!("{}: {}", p.name, p.kind);
        let list: Vec<String> = self.parameters.iter().map(of).collect();
        format!("{}({}) -> {}", self.name, list.join(", "), self.result)
    }

    pub fn parameter(&self, name: &str) -> Option<&Parameter> {
        self.parameters.iter().find(|p| p.name == name)
    }
}

/// The functions that are declared, and not defined.
pub fn entries(text: &str) -> Vec<Entry> {
    let lines = text.lines().map(|l| l.split("//").next().unwrap_or(""));
    let text = lines.collect::<Vec<_>>().join(" ");
    text.split("pub fn ").skip(1).filter_map(entry).collect()
}

/// The entry that a text begins with: `name(parameters) -> type;`.
fn entry(text: &str) -> Option<Entry> {
    let (name, rest) = text.split_once('(')?;
    let (list, rest) = rest.split_once(')')?;
    let (result, _) = rest.split_once(';')?;
    let result = result.trim().strip_prefix("->")?.trim();
    let declared = !result.contains('{');
    let parameters = list.split(',').filter_map(parameter).collect();
    declared.then(|| Entry {
        name: name.to_string(),
        parameters,
        result: result.to_string(),
    })
}

fn parameter(text: &str) -> Option<Parameter> {
    let (name, kind) = text.split_once(':')?;
    Some(Parameter {
        name: name.trim().to_string(),
        kind: kind.trim().to_string(),
    })
}
