//! The cost of an operation: the proved monitor beside two in Rust, on the same records, in the same run, with the same replies. One of the two is fast by
//! tables that it works out when a rule is taken; the other does and keeps what the proved one does and keeps.
//!
//! The one argument is a directory of sessions (`NAME.rec`), on which the three are compared before anything is measured. With `run [MONITOR] SHEET COUNT` in
//! its place one monitor (proved, tables, same) answers that many acts once, for a profiler; where the monitor is named, `batch` or
//! `image` may stand after the count: that many batches of acts, or the image restored and kept that many times.

mod cases;
mod clock;
mod fast;
mod host;
mod image;
mod layout;
mod measure;
mod proved;
mod same;
mod session;
mod sheets;
// The judge is not measured.
#[allow(dead_code)]
#[path = "../../tests/calls/stand.rs"]
mod stand;
mod stored;
mod table;

use measure::MONITORS;
use session::Session;

/// One run of one monitor alone.
fn once(monitor: &str, sheet: &str, count: &str, what: &str) {
    let offer = sheets::offer(sheet);
    let count = count.parse().expect("a count");
    let session = match what {
        "acts" => Session::new(&offer.sheet, offer.acts, count),
        "batch" => cases::batches(&offer, count),
        "image" => cases::images(&offer, count),
        _ => panic!("{what}: acts, batch, image"),
    };
    let names = ["proved", "tables", "same"];
    let at = names.iter().position(|&name| name == monitor);
    let run = MONITORS[at.expect("a monitor: proved, tables, same")];
    run(&session, session.len(), &mut session.answers());
}

fn main() {
    let arguments: Vec<String> = std::env::args().skip(1).collect();
    match arguments.iter().map(String::as_str).collect::<Vec<_>>()[..] {
        [directory] => {
            stored::compare_all(directory);
            println!();
            cases::all();
        }
        ["run", sheet, count] => once("proved", sheet, count, "acts"),
        ["run", monitor, sheet, count] => once(monitor, sheet, count, "acts"),
        ["run", monitor, sheet, count, what] => once(monitor, sheet, count, what),
        _ => panic!("give the directory of the stored sessions"),
    }
}
