//! Instructions, by callgrind: this program runs itself under it once more.

use crate::measured::Values;
use crate::row::{Row, Work};
use std::hint::black_box;
use std::path::Path;
use std::process::{Command, Stdio};
use std::{env, fs, io};

/// The word by which the program knows that it is under callgrind.
pub const WORD: &str = "counted";

/// The name of `counted` as callgrind sees it.
const COUNTED: &str = "bench_counted";

/// Instructions a unit, of each side of each row; none without valgrind.
pub fn counts(rows: &[Row]) -> Option<Vec<Values>> {
    let dumps = env::temp_dir().join(format!("{COUNTED}.{}", std::process::id()));
    fs::create_dir(&dumps).expect("a folder for what callgrind writes");
    let done = under_callgrind(&dumps);
    let totals = |count| {
        (1..=count)
            .map(|dump| total(&dumps, dump))
            .collect::<Vec<_>>()
    };
    let works = rows.iter().flat_map(|row| row.works.iter().flatten());
    let totals = done.then(|| totals(works.count() + 1));
    fs::remove_dir_all(&dumps).expect("it is removed again");
    let totals = totals?;
    // The first counts an empty work.
    let (empty, mut totals) = (totals[0], totals[1..].iter());
    let each = |row: &Row| {
        let units = (row.inputs * row.units) as f64;
        let mut next = |_: &Work| Some((totals.next()? - empty) as f64 / units);
        let works = row.works.iter();
        works
            .map(|work| work.as_ref().and_then(&mut next))
            .collect()
    };
    Some(rows.iter().map(each).collect())
}

fn under_callgrind(dumps: &Path) -> bool {
    let mut valgrind = Command::new("valgrind");
    valgrind
        .args(["--tool=callgrind", "--collect-atstart=no"])
        .arg(format!("--toggle-collect={COUNTED}"))
        .arg(format!("--dump-after={COUNTED}"))
        .arg(format!(
            "--callgrind-out-file={}",
            dumps.join("dump").display()
        ))
        .arg(env::current_exe().expect("this program's own name"))
        .arg(WORD);
    match valgrind.stderr(Stdio::null()).status() {
        Ok(status) => {
            assert!(status.success(), "{valgrind:?}");
            true
        }
        Err(error) if error.kind() == io::ErrorKind::NotFound => false,
        Err(error) => panic!("valgrind: {error}"),
    }
}

fn total(dumps: &Path, dump: usize) -> u64 {
    let dump = dumps.join(format!("dump.{dump}"));
    let text = fs::read_to_string(&dump).unwrap_or_else(|e| panic!("{}: {e}", dump.display()));
    let total = text.lines().find_map(|line| line.strip_prefix("summary: "));
    total
        .expect("a dump has its total")
        .trim()
        .parse()
        .expect("it is a number")
}

/// What callgrind counts: an empty work, then each work of each row.
pub fn run(rows: &mut [Row]) {
    let mut empty: Work = Box::new(|_| 0);
    bench_counted(&mut empty, 0);
    for row in rows {
        for work in row.works.iter_mut().flatten() {
            bench_counted(work, row.inputs);
        }
    }
}

/// The name tells callgrind where to begin and to end.
#[no_mangle]
#[inline(never)]
extern "C" fn bench_counted(work: &mut Work, inputs: usize) {
    black_box(work(0..inputs));
}
