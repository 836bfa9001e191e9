//! The generated files of the crates `text_utils`, `replace`, `check_char` and `page_15`. The folders are those of the original's sources,
//! of Unicode's data and of the crate `text_utils`, beside which the others stand.
//!
//!     tables src SOURCES DATA CRATE      writes src/tables.rt
//!     tables specs SOURCES DATA CRATE    writes specs/Tables.antt
//!     tables breaks SOURCES DATA CRATE   writes specs/Breaks.antt
//!     tables unicode SOURCES DATA CRATE  writes specs/Unicode.antt of the crate `check_char`, which stands beside it
//!     tables replaced SOURCES DATA CRATE writes specs/Runs.antt of the crate `replace`
//!     tables letters SOURCES DATA CRATE  writes specs/Decompositions.antt of the crate `replace`
//!     tables reasons SOURCES DATA CRATE  writes specs/Runs.antt of the crate `check_char`
//!     tables page SOURCES DATA CRATE     writes src/numbers.rt of the crate `page_15`
//!     tables ranges SOURCES DATA CRATE   writes specs/Unicode.antt of the crate `page_15`
//!     tables check SOURCES DATA CRATE    compares all with the crates' files, and the sources with each other, and tries the packing

use harness::tables::{check, decompositions, files, page, runs, unicode, ORIGINAL};
use std::path::Path;
use std::process::ExitCode;
use std::{env, fs};

fn main() -> ExitCode {
    let words: Vec<String> = env::args().skip(1).collect();
    let [what, sources, data, package] = words.as_slice() else {
        return usage();
    };
    let made = match what.as_str() {
        "src" => original(sources).and_then(|text| files::src(&text)),
        "specs" => files::specs(Path::new(data)),
        "breaks" => files::breaks(Path::new(data)),
        "unicode" => unicode::specs(Path::new(data)),
        "replaced" => Ok(runs::replaced()),
        "letters" => decompositions::specs(Path::new(data)),
        "reasons" => Ok(runs::reasons()),
        "page" => Ok(page::src()),
        "ranges" => page::specs(Path::new(data)),
        "check" => check_all(sources, Path::new(data), Path::new(package)),
        _ => return usage(),
    };
    match made {
        Ok(text) => {
            print!("{text}");
            ExitCode::SUCCESS
        }
        Err(fault) => {
            eprintln!("harness/tables: {fault}");
            ExitCode::FAILURE
        }
    }
}

fn usage() -> ExitCode {
    eprintln!("usage: tables src|specs|breaks|unicode|replaced|letters|reasons|page|ranges|check SOURCES DATA CRATE");
    ExitCode::from(2)
}

/// The files of all crates.
fn check_all(sources: &str, data: &Path, package: &Path) -> Result<String, String> {
    let found = check::check(&original(sources)?, data, package)?;
    let crates = package.parent().ok_or("the crate is in no folder")?;
    let of_check_char = unicode::check(data, &crates.join("check_char"))?;
    let of_replace = decompositions::check(data, &crates.join("replace"))?;
    let of_page = page::check(data, &crates.join("page_15"))?;
    Ok(found + &of_check_char + &runs::check(crates)? + &of_replace + &of_page)
}

/// The text of the original's file.
fn original(sources: &str) -> Result<String, String> {
    let path = Path::new(sources).join(ORIGINAL);
    fs::read_to_string(&path).map_err(|error| format!("{}: {error}", path.display()))
}
