//! Declarations as they are written, in Rattle and in Rust: the sizes of arrays,
//! the parameters of functions and the numbers of an enum's cases, so that the
//! bindings can be held to the code.

use std::collections::BTreeMap;
use std::path::Path;
use std::{fs, io};

/// The source texts of crates, by the crate's name.
pub struct Sources(BTreeMap<String, String>);

/// A parameter as it is passed: how it is written, and its words if it is an
/// array behind a reference.
#[derive(Clone, PartialEq, Eq, Debug)]
pub enum Passed {
    /// A number, or a truth value.
    Number(String),
    /// A pointer to numbers, and whether they may be written; with the length of
    /// each dimension, outermost first, of an array, and none of a slice.
    Pointer { of: String, writable: bool, dimensions: Vec<usize> },
}

/// What a function takes and returns.
#[derive(Clone, PartialEq, Eq, Debug)]
pub struct Signature {
    pub parameters: Vec<Passed>,
    pub result: String,
}

impl Sources {
    /// All crates below a folder: NAME/src/*.rt.
    pub fn of_crates(folder: &Path) -> io::Result<Self> {
        let mut sources = BTreeMap::new();
        for entry in fs::read_dir(folder)? {
            let entry = entry?;
            let text = source_text(&entry.path().join("src"), "rt")?;
            sources.insert(entry.file_name().to_string_lossy().into_owned(), text);
        }
        Ok(Sources(sources))
    }

    /// One file as a crate.
    pub fn of_file(name: &str, file: &Path) -> io::Result<Self> {
        Ok(Sources([(name.into(), uncommented(&fs::read_to_string(file)?))].into()))
    }

    /// A declaration `KEYWORD NAME ... = IT;` in a crate, or in the one that it uses it from.
    fn declared(&self, home: &str, keyword: &str, name: &str) -> Option<(String, String)> {
        let text = self.0.get(home)?;
        if let Some((first, rest)) = name.split_once("::") {
            let home = if first == "crate" { home } else { first };
            let last = rest.rsplit("::").next()?;
            return self.declared(home, keyword, last);
        }
        for (at, _) in text.match_indices(&format!("{keyword} {name}")) {
            let rest = &text[at + keyword.len() + 1 + name.len()..];
            if !rest.starts_with([':', ' ', '=']) {
                continue;
            }
            let it = rest.split_once('=')?.1;
            return Some((home.into(), up_to_semicolon(it).trim().into()));
        }
        let import = imports(text).into_iter().find(|path| path.ends_with(&format!("::{name}")))?;
        (import.split("::").next() != Some("crate"))
            .then(|| self.declared(home, keyword, &import))
            .flatten()
    }

    /// A number written as sums and products of numbers and constants.
    fn number(&self, home: &str, text: &str) -> Option<usize> {
        if let Some((left, right)) = text.rsplit_once('+') {
            return Some(self.number(home, left)? + self.number(home, right)?);
        }
        if let Some((left, right)) = text.rsplit_once('/') {
            return Some(self.number(home, left)? / self.number(home, right)?);
        }
        if let Some((left, right)) = text.rsplit_once('*') {
            return Some(self.number(home, left)? * self.number(home, right)?);
        }
        let text = text.trim();
        if let Ok(number) = text.replace('_', "").parse() {
            return Some(number);
        }
        let (home, value) = self.declared(home, "const", text)?;
        self.number(&home, &value)
    }

    /// A constant of that name, in whichever crate it stands.
    pub fn constant(&self, name: &str) -> Option<usize> {
        self.0.keys().find_map(|home| self.number(home, name))
    }

    /// A type's numbers, and the length of each dimension.
    fn array(&self, home: &str, text: &str) -> Option<(String, Vec<usize>)> {
        let text = text.trim();
        if let Some(inner) = text.strip_prefix('[').and_then(|text| text.strip_suffix(']')) {
            let Some((element, length)) = inner.rsplit_once(';') else {
                return self.array(home, inner);
            };
            let (of, mut dimensions) = self.array(home, element)?;
            dimensions.insert(0, self.number(home, length)?);
            return Some((of, dimensions));
        }
        if ["u8", "u16", "u32", "u64", "usize", "bool"].contains(&text) {
            return Some((text.into(), Vec::new()));
        }
        let (home, it) = self.declared(home, "type", text)?;
        self.array(&home, &it)
    }

    fn passed(&self, home: &str, text: &str) -> Option<Vec<Passed>> {
        let pointer = |text: &str, writable| {
            let (of, dimensions) = self.array(home, text)?;
            Some(Passed::Pointer { of, writable, dimensions })
        };
        let references = [("&mut ", true), ("&", false), ("*mut ", true), ("*const ", false)];
        for (mark, writable) in references {
            let Some(text) = text.strip_prefix(mark) else { continue };
            let slice = text.starts_with('[') && !text.contains(';');
            let length = slice.then(|| Passed::Number("usize".into()));
            return Some([pointer(text, writable)?].into_iter().chain(length).collect());
        }
        Some(vec![Passed::Number(self.array(home, text)?.0)])
    }

    /// A function's signature as it is passed: a slice as a pointer and a length.
    pub fn signature(&self, home: &str, name: &str) -> Option<Signature> {
        let text = self.0.get(home)?;
        let start = text.find(&format!("fn {name}("))?;
        let (parameters, rest) = text[start..].split_once('(')?.1.split_once(')')?;
        let mut passed = Vec::new();
        for parameter in parameters.split(',').filter(|parameter| !parameter.trim().is_empty()) {
            passed.extend(self.passed(home, parameter.split_once(':')?.1.trim())?);
        }
        let result = rest.trim_start().strip_prefix("->").unwrap_or("()").trim_start();
        let end = result.find([' ', '\n', ';', '{']).unwrap_or(result.len());
        Some(Signature { parameters: passed, result: result[..end].into() })
    }

    /// The number that a function gives to each case of an enum, a line for each:
    /// `ENUM::CASE => NUMBER,`.
    pub fn numbers(&self, home: &str, function: &str, of: &str) -> Vec<(String, usize)> {
        let start = self.0.get(home).and_then(|text| text.split_once(&format!("fn {function}(")));
        let body = start.map_or("", |(_, rest)| rest.split("\n}").next().unwrap_or(""));
        let cases =
            body.lines().filter_map(|line| line.trim().strip_prefix(of)?.strip_prefix("::"));
        let numbered = cases.filter_map(|case| case.strip_suffix(',')?.split_once(" => "));
        let read = |(case, number): (&str, &str)| Some((case.into(), self.number(home, number)?));
        numbered.filter_map(read).collect()
    }
}

impl Passed {
    /// The dimensions of an array behind a reference.
    pub fn dimensions(&self) -> &[usize] {
        match self {
            Passed::Number(_) => &[],
            Passed::Pointer { dimensions, .. } => dimensions,
        }
    }

    fn in_c(&self) -> String {
        match self {
            Passed::Number(of) => c_number(of).into(),
            Passed::Pointer { of, writable, .. } => {
                format!("{}{} *", if *writable { "" } else { "const " }, c_number(of))
            }
        }
    }
}

impl Signature {
    /// The declaration in C.
    pub fn in_c(&self, name: &str) -> String {
        let parameters: Vec<String> = self.parameters.iter().map(Passed::in_c).collect();
        format!("{} {name}({});\n", c_number(&self.result), parameters.join(", "))
    }
}

fn c_number(name: &str) -> &'static str {
    match name {
        "()" => "void",
        "u8" => "uint8_t",
        "u16" => "uint16_t",
        "u32" => "uint32_t",
        "u64" => "uint64_t",
        "usize" => "size_t",
        "bool" => "bool",
        _ => panic!("{name} is passed nowhere yet"),
    }
}

/// The declarations of all files of a folder, `lib` first.
fn source_text(folder: &Path, extension: &str) -> io::Result<String> {
    let mut files: Vec<_> = match fs::read_dir(folder) {
        Ok(entries) => entries.map(|entry| entry.map(|it| it.path())).collect::<Result<_, _>>()?,
        Err(_) => Vec::new(),
    };
    files.retain(|file| file.extension().is_some_and(|it| it == extension));
    files.sort_by_key(|file| (file.file_stem().is_some_and(|stem| stem != "lib"), file.clone()));
    let texts: io::Result<Vec<String>> = files.iter().map(fs::read_to_string).collect();
    Ok(uncommented(&texts?.concat()))
}

fn uncommented(text: &str) -> String {
    text.lines().map(|line| line.split("//").next().unwrap_or("").to_owned() + "\n").collect()
}

/// The paths that a text imports, each whole.
fn imports(text: &str) -> Vec<String> {
    let mut paths = Vec::new();
    for (at, _) in text.match_indices("use ") {
        let before = text[..at].strip_suffix("pub ").unwrap_or(&text[..at]);
        if before.is_empty() || before.ends_with('\n') {
            let item = text[at + 4..].split(';').next().unwrap_or("");
            spread(&item.split_whitespace().collect::<String>(), &mut paths);
        }
    }
    paths
}

/// The paths of an import with braces: `a::{b, c::{d, e}}`.
fn spread(item: &str, paths: &mut Vec<String>) {
    let Some((front, inner)) = item.split_once('{') else {
        return paths.push(item.into());
    };
    let inner = inner.strip_suffix('}').unwrap_or(inner);
    let (mut depth, mut start) = (0, 0);
    for (at, byte) in inner.bytes().chain([b',']).enumerate() {
        match byte {
            b'{' => depth += 1,
            b'}' => depth -= 1,
            b',' if depth == 0 => {
                spread(&format!("{front}{}", &inner[start..at]), paths);
                start = at + 1;
            }
            _ => {}
        }
    }
}

/// Up to the semicolon that is in no bracket.
fn up_to_semicolon(text: &str) -> &str {
    let mut depth = 0;
    for (at, byte) in text.bytes().enumerate() {
        match byte {
            b'[' => depth += 1,
            b']' => depth -= 1,
            b';' if depth == 0 => return &text[..at],
            _ => {}
        }
    }
    text
}
