//! The sheets that are measured, and the acts offered on them.

/// A list of lines to begin a session with.
pub type Sheet = Vec<String>;

fn role(name: &str, parent: &str) -> String {
    format!("Lrole {name} under {parent}")
}

/// Five short rules over the roles of `samples/session.txt`.
fn light() -> Sheet {
    let mut lines = Vec::new();
    for (name, parent) in [
        ("lamp", "top"),
        ("white", "lamp"),
        ("uv", "lamp"),
        ("low", "top"),
        ("filter", "top"),
        ("cut420", "filter"),
        ("open", "filter"),
        ("expose", "top"),
        ("frag17", "top"),
        ("frag18", "top"),
    ] {
        lines.push(role(name, parent));
    }
    for rule in [
        "dim: any*; <uv>; send <uv low>",
        "needcut: any*<uv *>[not <cut420>]*; <expose *>; hold",
        "allow17: (any*<expose frag17>)(any*<expose frag17>)any*; <expose frag17>; hold",
        "note: any*<+lamp *>; <open>; send <open low>",
        "first: [not <+filter *>]*; <expose *>; hold",
    ] {
        lines.push(format!("Lrule {rule}"));
    }
    lines
}

/// A sheet, the acts offered on it round and round, and how the reply to each begins.
pub struct Offer {
    pub sheet: Sheet,
    pub acts: &'static [&'static str],
    pub reply: &'static str,
}

/// Acts that no rule of the light sheet answers to: each is committed as it is.
const PLAIN: [&str; 8] = [
    "white",
    "cut420",
    "expose frag18",
    "uv low",
    "cut420",
    "open",
    "expose frag18",
    "lamp low",
];

/// What is measured, by name.
pub fn offer(name: &str) -> Offer {
    let (sheet, acts, reply): (Sheet, &'static [&'static str], _) = match name {
        "bare" => (light()[..10].to_vec(), &PLAIN, "C 00"),
        "light" => (light(), &PLAIN, "C 00"),
        // no filter has been set, so that the rule `first` holds every exposure
        "held" => (light(), &["expose frag18"], "H 01"),
        // the rule `dim` sends each on as `uv low`, and that is committed
        "sent" => (light(), &["uv"], "C 01"),
        "heavy" => (heavy(), &HEAVY_ACTS, "C 00"),
        "long" => (long(), &LONG_ACTS, "C 00"),
        "worst" => (worst(), &["c61 c61 c61 c61"], "T 64"),
        "nested" => (nests(), &["top"], "T 64"),
        // for its image, not for its acts
        "full" => (full(), &HEAVY_ACTS, ""),
        _ => panic!("no sheet {name}: bare, light, held, sent, heavy, long, worst, nested, full"),
    };
    Offer { sheet, acts, reply }
}

/// The roles that the heavy sheet's pasts speak of; `z` is declared too, and offered by no act that is measured.
const LETTERS: [char; 8] = ['a', 'b', 'c', 'd', 'e', 'f', 'g', 'h'];

/// 32 rules of 31 patterns: `any*<a>any*<b> ..`, 15 times `any*` and 16 names. When every name has come often enough, each `any*` stays
/// alive for good, and the names after them come and go. The trigger, `<z>`, is met by no act that is measured.
fn heavy() -> Sheet {
    let mut lines: Sheet = LETTERS
        .iter()
        .map(|c| role(&c.to_string(), "top"))
        .collect();
    lines.push(role("z", "top"));
    for i in 0..32 {
        let letter = |k: usize| LETTERS[(k * (1 + i % 7) + i / 7) % 8];
        let mut past: String = (0..15).map(|k| format!("any*<{}>", letter(k))).collect();
        past.push_str(&format!("<{}>", letter(15)));
        lines.push(format!("Lrule r{i}:{past};<z>;hold"));
    }
    lines
}

/// One role each, each letter in turn in an order that is not the alphabet's.
const HEAVY_ACTS: [&str; 11] = ["a", "c", "b", "e", "h", "d", "d", "g", "f", "a", "b"];

/// The heavy sheet with as many roles more as there is room for.
fn full() -> Sheet {
    let mut lines = heavy();
    for k in 0..54 {
        lines.insert(9 + k, role(&format!("more-{k}"), "z"));
    }
    lines
}

/// A name of two bytes for each of 32 rules.
fn short_name(i: usize) -> String {
    format!("{}{}", ['r', 's', 't', 'u'][i / 10], i % 10)
}

/// 32 rules of 51 patterns, which their lines just have room for: 48 times `<>` in three runs, `any*` before each, at other places in each of the first 25
/// rules; the last seven are as the first. An act of no roles moves every position on; one with a role leaves those of `any*` alone, of which two stand beyond
/// the first run. The trigger, `<z>`, is met by no act that is measured.
fn long() -> Sheet {
    let mut lines = vec![role("a", "top"), role("z", "top")];
    for i in 0..32 {
        let (first, second) = (13 + i % 5, 13 + i / 5 % 5);
        let runs = [first, second, 48 - first - second];
        let past: String = runs.map(|run| format!("any*{}", "<>".repeat(run))).concat();
        lines.push(format!("Lrule {}:{past};<z>;hold", short_name(i)));
    }
    lines
}

/// As many acts of no roles as a run has patterns, and more; then one that ends it.
const LONG_ACTS: [&str; 24] = [
    "", "", "", "", "", "", "", "", "", "", "", "", "", "", "", "", "", "", "", "", "", "", "", "a",
];

/// A rule whose past matches while nothing is committed, with this pattern as its trigger, in as many brackets as its line has room for.
fn nested(i: usize, pattern: &str, response: &str) -> String {
    let front = format!("rule {}:();", short_name(i));
    let left = 126 - front.len() - pattern.len() - response.len() - ";[]".len();
    let [open, close] = ["(", ")"].map(|bracket| bracket.repeat(left / 2));
    format!("L{front}[{open}{pattern}{close}];{response}")
}

/// 64 responses worked, each `anew`, so that each looks up a chain over 31 triggers that are not met, of 32 items each, and then the one that is. The
/// first item of each four asks whether `c61`, 62 steps below top, is below `z`, which it is not; that decides, and the three after it are passed over. It ends
/// too long, T 64.
fn worst() -> Sheet {
    let mut lines = vec![role("z", "top"), role("c0", "top")];
    for k in 1..62 {
        lines.push(role(&format!("c{k}"), &format!("c{}", k - 1)));
    }
    lines.push("Lrule r0:any*;any;anew <c61 c61 c61 c61>".to_string());
    for i in 1..32 {
        let terms = vec!["<+z+z+z+z>"; 8].join("or");
        lines.push(format!("Lrule r{i}:any*;[{terms}];hold"));
    }
    lines
}

/// The costliest act known: the same with triggers of one pattern in brackets. A condition is judged by its nesting: a pair of brackets, two bytes of a line, costs
/// two calls, one in the other. Lines full of patterns joined by `or`, of items met but the last, or of `not` cost less.
fn nests() -> Sheet {
    let mut lines = vec![nested(0, "any", "anew<#1>")];
    lines.extend((1..32).map(|i| nested(i, "<>", "hold")));
    lines
}
