//! Takes the original sources and writes what the oracle includes into OUT_DIR, with mechanical
//! edits only. `edits.txt` there lists each of them. An edit that does not find its text exactly
//! as often as stated stops the build, and so does a source that differs from SHA256SUMS.

use std::fmt::Write as _;
use std::path::{Path, PathBuf};
use std::process::Command;
use std::{env, fs};

/// Where the sources are if the variable SUMMERSET is not set, from this package's folder.
const DEFAULT_SOURCES: &str = "../../shared/docs/src";

fn main() {
    println!("cargo:rerun-if-env-changed=SUMMERSET");
    println!("cargo:rerun-if-changed=build.rs");
    let package = PathBuf::from(env::var("CARGO_MANIFEST_DIR").unwrap());
    let root = env::var("SUMMERSET").map_or_else(|_| package.join(DEFAULT_SOURCES), PathBuf::from);
    let out = PathBuf::from(env::var("OUT_DIR").unwrap());
    let mut build = Build {
        sums: package.join("SHA256SUMS"),
        root,
        out,
        log: String::new(),
    };
    build.utils();
    build.reliability();
    build.assignment();
    build.replica();
    build.write("edits.txt", &build.log);
}

struct Build {
    /// The sums that the sources must have.
    sums: PathBuf,
    /// The folder that holds the original's `src`.
    root: PathBuf,
    out: PathBuf,
    /// What was done, a line for each edit.
    log: String,
}

/// An original source, edited so far.
struct Source {
    name: &'static str,
    text: String,
}

/// What is taken, file by file.
impl Build {
    fn utils(&mut self) {
        let mut bitmap = self.load("src/utils/bitmap.rs");
        self.cut_blocks(&mut bitmap, "unsafe impl", 2);
        self.write("bitmap.rs", &bitmap.text);
        let error = self.load("src/utils/error.rs");
        self.write("error.rs", &error.text);
        let linreg = self.load("src/utils/linreg.rs");
        self.write("linreg.rs", &linreg.text);
    }

    fn reliability(&mut self) {
        let mut source = self.load("src/protocols/crossword/reliability.rs");
        for field in [
            "domains: Vec<Bitmap>,",
            "probs: Option<(Vec<f64>, f64)>,",
            "runtime: bool,",
            "maximal_faults: Vec<Bitmap>,",
        ] {
            let (old, new) = (
                format!("\n    {field}\n"),
                format!("\n    pub(super) {field}\n"),
            );
            self.replace(&mut source, &old, &new, 1);
        }
        self.write("reliability.rs", &source.text);
    }

    fn assignment(&mut self) {
        let mut source = self.load("src/protocols/crossword/assignment.rs");
        for name in ["layout_rows", "layout_commits"] {
            let (old, new) = (format!("\nfn {name}("), format!("\npub(super) fn {name}("));
            self.replace(&mut source, &old, &new, 1);
        }
        self.write("assignment.rs", &source.text);
    }

    /// The declarations and the functions of `CrosswordReplica` that the oracle runs.
    fn replica(&mut self) {
        let main = self.load("src/protocols/crossword/mod.rs");
        let adaptive = self.load("src/protocols/crossword/adaptive.rs");
        let gossiping = self.load("src/protocols/crossword/gossiping.rs");
        let messages = self.load("src/protocols/crossword/messages.rs");

        let mut text = self.declarations(&main);
        text += "impl CrosswordReplica {\n";
        text += &self.functions(&main, &["is_leader"]);
        text += &self.functions(
            &adaptive,
            &[
                "parse_init_assignment",
                "min_shards_per_replica",
                "pick_assignment_policy",
                "push_pending_accept",
                "clear_pending_accepts",
                "record_accept_rtt",
            ],
        );
        text += &self.functions(&gossiping, &["gossip_targets_excl"]);
        text += &self.functions(
            &messages,
            &[
                "choose_data_shards",
                "pick_assignment",
                "handle_msg_accept_reply",
            ],
        );
        text += &self.fallback(&messages);
        text += "}\n";
        self.write("replica.rs", &text);
    }

    fn declarations(&mut self, main: &Source) -> String {
        let mut text = String::new();
        for name in ["Ballot", "ReqBatch", "ValueId"] {
            text += &self.item(main, &[format!("type {name} =")], None);
        }
        for name in [
            "Status",
            "AcceptedValue",
            "LeaderBookkeeping",
            "ReplicaBookkeeping",
            "Instance",
            "WalEntry",
            "LogCtx",
        ] {
            let heads = [format!("struct {name} {{"), format!("enum {name} {{")];
            text += &self.item(main, &heads, Some("}"));
        }
        text
    }

    fn functions(&mut self, source: &Source, names: &[&str]) -> String {
        let mut text = String::new();
        for name in names {
            let heads = [format!("    fn {name}("), format!("    fn {name}<")];
            text += &self.item(source, &heads, Some("    }"));
        }
        text
    }

    /// The last lines of `pick_assignment`, once more as a function of their own.
    fn fallback(&mut self, messages: &Source) -> String {
        let head = "        // otherwise (e.g., too many peers down".to_string();
        let body = self.item(messages, &[head], Some("    }"));
        let name = "full_copies(&self, d: u8, total: TotalShards) -> (u8, u8, Vec<Bitmap>)";
        self.note(
            messages.name,
            &format!("gave these lines the head `{name}`"),
        );
        format!("    fn {name} {{\n{body}")
    }
}

/// The kinds of edit.
impl Build {
    /// Reads a source. Its tests are left out, then its sum is checked.
    fn load(&mut self, name: &'static str) -> Source {
        let path = self.root.join(name);
        println!("cargo:rerun-if-changed={}", path.display());
        let mut text = fs::read_to_string(&path)
            .unwrap_or_else(|e| panic!("{}: {e} (SUMMERSET names its folder)", path.display()));
        if let Some(tests) = text.find("\n#[cfg(test)]\n") {
            text.truncate(tests + 1);
            self.note(name, "left out from the line `#[cfg(test)]` on");
        }
        self.check_sum(name, &text);
        let mut source = Source { name, text };
        // `include!` takes no `//!` comments
        let count = source.text.lines().filter(|l| l.starts_with("//!")).count();
        self.replace(&mut source, "//!", "//", count);
        source
    }

    /// Stops the build unless the text has the sum that SHA256SUMS says.
    fn check_sum(&self, name: &str, text: &str) {
        println!("cargo:rerun-if-changed={}", self.sums.display());
        let sums = fs::read_to_string(&self.sums).unwrap();
        let expected = sums
            .lines()
            .find_map(|line| line.strip_suffix(name)?.strip_suffix("  "))
            .unwrap_or_else(|| panic!("SHA256SUMS does not list {name}"));
        let copy = self.out.join("source");
        fs::write(&copy, text).unwrap();
        let found = sha256(&copy);
        assert!(
            found == expected,
            "{name}: SHA-256 is {found}, SHA256SUMS says {expected}"
        );
    }

    /// Replaces `old`, which stands exactly `times` times.
    fn replace(&mut self, source: &mut Source, old: &str, new: &str, times: usize) {
        let found = source.text.matches(old).count();
        assert_eq!(
            found, times,
            "{}: `{old}` stands {found} times, not {times}",
            source.name
        );
        source.text = source.text.replace(old, new);
        let (old, new) = (old.trim(), new.trim());
        self.note(
            source.name,
            &format!("replaced {times} times `{old}` by `{new}`"),
        );
    }

    /// Leaves out the `times` blocks from a line that begins with `head` to the next line `}`.
    fn cut_blocks(&mut self, source: &mut Source, head: &str, times: usize) {
        let (mut kept, mut inside, mut found) = (String::new(), false, 0);
        for line in source.text.lines() {
            if !inside && line.starts_with(head) {
                inside = true;
                found += 1;
            }
            if !inside {
                kept += line;
                kept.push('\n');
            }
            inside &= line != "}";
        }
        assert_eq!(
            found, times,
            "{}: {found} blocks begin `{head}`, not {times}",
            source.name
        );
        source.text = kept;
        self.note(
            source.name,
            &format!("left out {times} blocks that begin `{head}`"),
        );
    }

    /// The one item with a line that begins with one of `heads`, its visibility aside: with the
    /// comments and attributes above that line, and to the next line `end` if there is one.
    fn item(&mut self, source: &Source, heads: &[String], end: Option<&str>) -> String {
        let lines: Vec<&str> = source.text.lines().collect();
        let is_head = |line: &str| {
            let bare = line.replace("pub(super) ", "");
            heads.iter().any(|head| bare.starts_with(head))
        };
        let found: Vec<usize> = (0..lines.len()).filter(|&i| is_head(lines[i])).collect();
        let [head] = found[..] else {
            panic!(
                "{}: {} items begin {heads:?}, not 1",
                source.name,
                found.len()
            );
        };
        let is_above = |line: &str| !line.is_empty() && !line.ends_with('{');
        let mut first = head;
        while first > 0 && is_above(lines[first - 1]) {
            first -= 1;
        }
        let last = end.map_or(head, |end| {
            let rest = lines[head..].iter().position(|&line| line == end);
            head + rest.unwrap_or_else(|| panic!("{}: no end of {heads:?}", source.name))
        });
        self.note(
            source.name,
            &format!(
                "took lines {} to {}: `{}`",
                first + 1,
                last + 1,
                lines[head].trim()
            ),
        );
        lines[first..=last].join("\n") + "\n\n"
    }

    fn note(&mut self, name: &str, what: &str) {
        writeln!(self.log, "{name}: {what}").unwrap();
    }

    fn write(&self, name: &str, text: &str) {
        fs::write(self.out.join(name), text).unwrap();
    }
}

fn sha256(path: &Path) -> String {
    let output = Command::new("sha256sum").arg(path).output();
    let output = output.expect("the program sha256sum does not run");
    let text = String::from_utf8(output.stdout).unwrap();
    text.split(' ').next().unwrap().to_string()
}
