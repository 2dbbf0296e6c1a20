//! The command line as a value.
use crate::map::Fault;
use std::ffi::OsString;
use std::fmt;
use std::os::unix::ffi::OsStringExt;
use std::path::PathBuf;

pub const HELP: &str = "\
lanes: lane links of OpenDRIVE maps

  lanes [check] [FILE]       what is found in the map, in a summary; with --all every row, with --json for scripts
  lanes links [FILE]         the lanes onward of each lane, as road/section/number, and the lanes before
  lanes gaps [FILE]          the links whose lanes do not meet, and where: metres along both edges, x and y
  lanes repair [FILE]        the road ends that get the junction they leave out
  lanes dot [FILE]           the lane graph for Graphviz
  lanes draw [FILE]          the map as SVG
  lanes form [FILE]          the map in plain text (docs/MAP-FORMAT.md)
  lanes reverse FILE NAME..  the map in plain text with the reference lines of these roads reversed;
                             with --from LIST those whose names stand in a file, one on each line; with --all every road's

FILE is OpenDRIVE or plain text; where it is - or left out, standard input is read.

  --types a,b      of OpenDRIVE: only lanes of these types
  --box x,y,x,y    of OpenDRIVE: only roads that reach into this box, in metres
  --no-edges       without the lanes' edges, and so without gaps
  --help, --version

The status is 0 where nothing was found, 1 where check, gaps or repair found something, and 2 where the map can't be read or
is refused, with a message on standard error and nothing on standard output.
";

#[derive(Clone, Copy, Debug, PartialEq, Eq)]
pub enum Command {
    Check,
    Links,
    Gaps,
    Repair,
    Dot,
    Draw,
    Form,
    Reverse,
}

const COMMANDS: [(&str, Command); 8] = [
    ("check", Command::Check),
    ("links", Command::Links),
    ("gaps", Command::Gaps),
    ("repair", Command::Repair),
    ("dot", Command::Dot),
    ("draw", Command::Draw),
    ("form", Command::Form),
    ("reverse", Command::Reverse),
];

impl Command {
    /// Does it repair the map first?
    pub fn repairs(self) -> bool {
        !matches!(self, Command::Form | Command::Reverse)
    }
}

/// Where a map comes from.
#[derive(Clone, Debug, PartialEq)]
pub enum Source {
    Standard,
    File(PathBuf),
}

impl fmt::Display for Source {
    fn fmt(&self, f: &mut fmt::Formatter<'_>) -> fmt::Result {
        match self {
            Source::Standard => f.write_str("standard input"),
            Source::File(path) => write!(f, "{}", path.display()),
        }
    }
}

impl Source {
    fn of(word: OsString) -> Source {
        if word == "-" {
            return Source::Standard;
        }
        Source::File(word.into())
    }

    /// A fault with the file and the line.
    pub fn said(&self, fault: &Fault) -> String {
        match fault.line {
            Some(line) => format!("{self}:{line}: {}", fault.what),
            None => format!("{self}: {}", fault.what),
        }
    }
}

/// What is asked for.
#[derive(Clone, Debug, PartialEq)]
pub struct Options {
    pub command: Command,
    /// Was the command left out?
    pub implied: bool,
    pub source: Source,
    /// The names of roads to reverse, and a file of names.
    pub names: Vec<Vec<u8>>,
    pub from: Option<Source>,
    pub all: bool,
    pub json: bool,
    pub types: Option<Vec<String>>,
    pub area: Option<[f64; 4]>,
    pub edges: bool,
}

/// A command line that is understood.
#[derive(Clone, Debug, PartialEq)]
pub enum Asked {
    Work(Options),
    Help,
    Version,
}

/// Reads the words of a command line. An error is a sentence.
pub fn read(words: Vec<OsString>) -> Result<Asked, String> {
    let mut options = Options {
        command: Command::Check,
        implied: true,
        source: Source::Standard,
        names: Vec::new(),
        from: None,
        all: false,
        json: false,
        types: None,
        area: None,
        edges: true,
    };
    let mut plain = Vec::new();
    let mut words = words.into_iter();
    while let Some(word) = words.next() {
        match word.to_str() {
            Some("--") => plain.extend(words.by_ref()),
            Some("--help" | "-h") => return Ok(Asked::Help),
            Some("--version") => return Ok(Asked::Version),
            Some(option) if option.starts_with("--") => take(option, &mut words, &mut options)?,
            _ => plain.push(word),
        }
    }
    place(plain, &mut options)?;
    fit(&options)?;
    Ok(Asked::Work(options))
}

/// Takes an option, and its value where it has one: after a =, or as the next word.
fn take(option: &str, words: &mut impl Iterator<Item = OsString>, options: &mut Options) -> Result<(), String> {
    let (name, given) = option.split_once('=').map_or((option, None), |(name, value)| (name, Some(OsString::from(value))));
    if !["--types", "--box", "--from"].contains(&name) {
        return switch(option, options);
    }
    let value = given.or_else(|| words.next()).ok_or_else(|| format!("{name} wants a value"))?;
    if name == "--from" {
        options.from = Some(Source::of(value));
        return Ok(());
    }
    let text = value.to_str().ok_or_else(|| format!("the value of {name} is not UTF-8"))?;
    match name {
        "--types" => options.types = Some(text.split(',').map(str::to_string).collect()),
        _ => options.area = Some(area(text).ok_or_else(|| format!("{text} stands where --box wants x,y,x,y"))?),
    }
    Ok(())
}

fn switch(option: &str, options: &mut Options) -> Result<(), String> {
    match option {
        "--all" => options.all = true,
        "--json" => options.json = true,
        "--no-edges" => options.edges = false,
        _ => return Err(format!("{option} is no option")),
    }
    Ok(())
}

/// A box of two corners: least x, least y, greatest x, greatest y.
fn area(text: &str) -> Option<[f64; 4]> {
    let numbers: Vec<f64> = text.split(',').map(|n| n.parse().ok().filter(|x: &f64| x.is_finite())).collect::<Option<_>>()?;
    let [a, b, c, d] = numbers[..] else { return None };
    Some([a.min(c), b.min(d), a.max(c), b.max(d)])
}

/// Puts the words that are no options in their places: command, file, names.
fn place(plain: Vec<OsString>, options: &mut Options) -> Result<(), String> {
    let mut plain = plain.into_iter().peekable();
    let command = plain.peek().and_then(|word| COMMANDS.iter().find(|(name, _)| word == name));
    if let Some((_, command)) = command {
        options.command = *command;
        options.implied = false;
        plain.next();
    }
    let file = plain.next();
    options.names = plain.map(OsString::into_vec).collect();
    if options.command != Command::Reverse && !options.names.is_empty() {
        let first = file.unwrap_or_default();
        return Err(match options.implied {
            true => format!("{} is no command", first.display()),
            false => "more than one file".into(),
        });
    }
    options.source = file.map_or(Source::Standard, Source::of);
    Ok(())
}

/// Do the options fit the command and each other?
fn fit(o: &Options) -> Result<(), String> {
    let reverse = o.command == Command::Reverse;
    if o.all && !reverse && o.command != Command::Check {
        return Err("--all is for check and reverse".into());
    }
    if o.json && o.command != Command::Check {
        return Err("--json is for check".into());
    }
    if o.from.is_some() && !reverse {
        return Err("--from is for reverse".into());
    }
    let named = !o.names.is_empty() || o.from.is_some();
    if reverse && named == o.all {
        return Err("reverse wants names of roads, --from LIST or --all".into());
    }
    if o.from == Some(Source::Standard) && o.source == Source::Standard {
        return Err("standard input can't be both the map and the list of names".into());
    }
    Ok(())
}
