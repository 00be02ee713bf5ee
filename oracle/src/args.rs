//! The command line's numbers.

pub struct Args {
    pub seed: u64,
    pub count: Option<u64>,
    /// The number of the first case.
    pub from: u64,
    pub all: bool,
    pub out: Option<String>,
    /// A file of a voice's G.721 codes.
    pub codes: Option<String>,
    /// A voice file, and a folder of call sheets for it.
    pub voice: Option<String>,
    pub sheets: Option<String>,
    /// A join and a filter, as in `simple-float`.
    pub only: Option<String>,
}

/// Reads `--seed N`, `--count N`, `--from N`, `--all`, `--out FILE`,
/// `--codes FILE`, `--voice FILE`, `--sheets FOLDER` and `--only JOIN-FILTER`.
pub fn read(words: &[String]) -> Result<Args, String> {
    let mut args = Args {
        seed: 1,
        count: None,
        from: 0,
        all: false,
        out: None,
        codes: None,
        voice: None,
        sheets: None,
        only: None,
    };
    let mut rest = words.iter();
    while let Some(word) = rest.next() {
        match word.as_str() {
            "--seed" => args.seed = number(word, rest.next())?,
            "--count" => args.count = Some(number(word, rest.next())?),
            "--from" => args.from = number(word, rest.next())?,
            "--all" => args.all = true,
            "--out" => args.out = Some(file(word, rest.next())?),
            "--codes" => args.codes = Some(file(word, rest.next())?),
            "--voice" => args.voice = Some(file(word, rest.next())?),
            "--sheets" => args.sheets = Some(file(word, rest.next())?),
            "--only" => args.only = Some(file(word, rest.next())?),
            other => return Err(format!("unknown option {other}")),
        }
    }
    Ok(args)
}

fn number(option: &str, word: Option<&String>) -> Result<u64, String> {
    let word = word.ok_or_else(|| format!("{option} needs a number"))?;
    word.parse()
        .map_err(|_| format!("{option} needs a number, not {word}"))
}

fn file(option: &str, word: Option<&String>) -> Result<String, String> {
    let word = word.ok_or_else(|| format!("{option} needs a file"))?;
    Ok(word.clone())
}
