//! The instructions of one run of the proved engine, by function, as valgrind counts them:
//! its counts do not depend on what else the machine does. What an instruction is, objdump
//! tells.

use std::collections::BTreeMap;
use std::path::Path;
use std::process::Command;
use std::{env, fs, process};

use crate::figures::grouped;

/// How often a function was called, and how many instructions of it ran: of all kinds, then
/// divisions, multiplications, and moves between registers, memory and the stack.
#[derive(Clone, Debug, Default, PartialEq)]
pub struct Count {
    pub calls: u64,
    pub instructions: u64,
    pub divisions: u64,
    pub multiplications: u64,
    pub moves: u64,
}

/// Each function by its name, without what valgrind adds to a recursive one's.
pub type Counts = BTreeMap<String, Count>;

/// What objdump adds to an instruction's name.
const SIZES: [&str; 5] = ["", "b", "w", "l", "q"];

/// What a command prints.
fn printed(command: &mut Command) -> String {
    let program = command.get_program().to_string_lossy().into_owned();
    let ran = command.output().unwrap_or_else(|error| {
        panic!("{program} does not start: {error} (packages valgrind and binutils)")
    });
    assert!(ran.status.success(), "{program}: {}", String::from_utf8_lossy(&ran.stderr));
    String::from_utf8(ran.stdout).expect("text")
}

/// The name of each instruction of a program, by its address.
fn names(program: &Path) -> BTreeMap<u64, String> {
    let code = printed(Command::new("objdump").args(["-d", "--no-show-raw-insn"]).arg(program));
    let lines = code.lines().filter_map(|line| line.trim_start().split_once(":\t"));
    let named = lines.filter_map(|(address, text)| {
        let name = text.split_whitespace().next()?;
        Some((u64::from_str_radix(address, 16).ok()?, name.to_string()))
    });
    named.collect()
}

impl Count {
    /// Puts down that an instruction ran so often.
    fn add(&mut self, name: &str, times: u64) {
        // The size of an operand may be added: `divq`.
        let is = |stem| name.strip_prefix(stem).is_some_and(|size| SIZES.contains(&size));
        self.instructions += times;
        if is("div") || is("idiv") {
            self.divisions += times;
        } else if is("mul") || is("imul") {
            self.multiplications += times;
        } else if is("push") || is("pop") || name.starts_with("mov") {
            self.moves += times;
        }
    }
}

/// A function's name without the sign of a call within a call.
fn plain(name: &str) -> String {
    name.split('\'').next().unwrap_or(name).to_string()
}

/// Reads what callgrind wrote with `--dump-instr=yes` and nothing shortened.
fn read(written: &str, names: &BTreeMap<u64, String>) -> Counts {
    let mut counts = Counts::new();
    let (mut function, mut callee) = (String::new(), String::new());
    let mut lines = written.lines();
    while let Some(line) = lines.next() {
        if let Some(name) = line.strip_prefix("fn=") {
            function = plain(name);
        } else if let Some(name) = line.strip_prefix("cfn=") {
            callee = plain(name);
        } else if let Some(call) = line.strip_prefix("calls=") {
            let times = call.split_whitespace().next().and_then(|word| word.parse::<u64>().ok());
            counts.entry(callee.clone()).or_default().calls += times.expect("a number of calls");
            // The next line is what the callee took, which is put down with the callee.
            lines.next();
        } else if let Some(cost) = line.strip_prefix("0x") {
            let words: Vec<&str> = cost.split_whitespace().collect();
            let address = u64::from_str_radix(words[0], 16).expect("an address");
            let name = names.get(&address).map_or("", String::as_str);
            let times = words[2].parse().expect("a number of instructions");
            counts.entry(function.clone()).or_default().add(name, times);
        }
    }
    counts
}

/// Counts what a program runs between entering and leaving `irga_run`.
pub fn counted(program: &Path, argument: &str) -> Counts {
    let written = env::temp_dir().join(format!("irga-calls-{}", process::id()));
    let words = ["--tool=callgrind", "--dump-instr=yes", "--compress-pos=no"];
    printed(
        Command::new("valgrind")
            .args(words)
            .args(["--compress-strings=no", "--toggle-collect=irga_run"])
            .arg(format!("--callgrind-out-file={}", written.display()))
            .arg(program)
            .arg(argument),
    );
    let text = fs::read_to_string(&written).expect("what valgrind wrote");
    fs::remove_file(&written).expect("what valgrind wrote, no longer needed");
    read(&text, &names(program))
}

/// So many out of a run of this many samples.
fn share(number: u64, samples: usize) -> String {
    let share = number as f64 / samples as f64;
    let digits = if share < 100.0 { 1 } else { 0 };
    grouped(&format!("{share:.digits$}"))
}

/// A sample's share of each function that takes one instruction of it or more, those that take
/// most first, and of all together.
pub fn table(counts: &Counts, samples: usize) -> String {
    let mut text =
        "| for a sample | calls | instructions | divisions | multiplications | moves |\n\
                    |---|---:|---:|---:|---:|---:|\n"
            .to_string();
    let mut rows: Vec<(&String, &Count)> = counts.iter().collect();
    rows.retain(|(_, count)| count.instructions >= samples as u64);
    rows.sort_by_key(|(_, count)| std::cmp::Reverse(count.instructions));
    for (name, count) in &rows {
        let parts = [count.instructions, count.divisions, count.multiplications, count.moves];
        let parts = parts.map(|part| share(part, samples)).join(" | ");
        text += &format!("| `{name}` | {} | {parts} |\n", share(count.calls, samples));
    }
    let all = counts.values().map(|count| count.instructions).sum();
    text + &format!("| all | | {} | | | |", share(all, samples))
}

#[cfg(test)]
mod tests {
    use super::*;

    #[test]
    fn what_callgrind_writes_is_read() {
        let names =
            [(0x10, "movq"), (0x12, "divq"), (0x14, "imul"), (0x16, "push"), (0x18, "call")];
        let names = names.map(|(address, name)| (address, name.to_string())).into();
        let written =
            "events: Ir\nfn=outer\n0x10 0 5\n0x18 0 5\ncfn=inner\ncalls=5 0x12 0\n0x18 0 40\n\
                       0x14 0 5\nfn=inner'2\n0x16 0 3\ncfn=inner'2\ncalls=2 0x12 0\n0x18 0 9\n\
                       fn=inner\n0x12 0 10\n";
        let counts = read(written, &names);
        let outer = Count { instructions: 15, multiplications: 5, moves: 5, ..Count::default() };
        assert_eq!(counts["outer"], outer);
        let inner =
            Count { calls: 7, instructions: 13, divisions: 10, moves: 3, ..Count::default() };
        assert_eq!(counts["inner"], inner);
        let table = table(&counts, 5);
        assert_eq!(table.lines().nth(2), Some("| `outer` | 0.0 | 3.0 | 0.0 | 1.0 | 1.0 |"));
        assert_eq!(table.lines().nth(3), Some("| `inner` | 1.4 | 2.6 | 2.0 | 0.0 | 0.6 |"));
        assert_eq!(table.lines().nth(4), Some("| all | | 5.6 | | | |"));
    }
}
