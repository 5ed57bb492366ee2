#!/usr/bin/env python3
"""Counts which branches of the original a file of questions takes.

    tools/oracle/branches.py OUT_DIR QUESTIONS [each]

OUT_DIR is where build.sh has put the assembled sources. Each condition of an `if`
or a `while`, each sign that a turn looks at, and each arm of a `match` in the
checked program gets a counter; the program is compiled into OUT_DIR/branches and
run on QUESTIONS. It prints how many of the sides were taken, and a line for each
that was not. The status is 0 however many were taken.
A condition that spans several lines is not counted. With 'each' it is, the operands
of `&&` and `||` are counted one by one, and so is each bound of a `min`, a `max` and
a `clamp`: whether it was what counted, and whether it was not.
"""

import pathlib
import re
import subprocess
import sys

FILES = ("logexp.rs", "quantize.rs", "rate.rs")

HITS = """use std::sync::atomic::{AtomicU64, Ordering};
static SEEN: [[AtomicU64; 2]; %d] = [const { [AtomicU64::new(0), AtomicU64::new(0)] }; %d];
/// Counts one side of the condition of that number, and hands it on.
pub fn side(at: usize, condition: bool) -> bool {
  SEEN[at][condition as usize].fetch_add(1, Ordering::Relaxed);
  condition
}
/// Counts whether there is a value, and hands it on.
pub fn some<T>(at: usize, value: Option<T>) -> Option<T> {
  side(at, value.is_some());
  value
}
/// Counts that an arm is taken.
pub fn arm(at: usize) {
  side(at, true);
}
/// Counts whether a bound was what counted.
pub trait Bounded: PartialOrd + Sized {
  fn least(self, at: usize, bound: Self) -> Self {
    if side(at, bound < self) { bound } else { self }
  }
  fn most(self, at: usize, bound: Self) -> Self {
    if side(at, bound > self) { bound } else { self }
  }
  fn kept(self, at: usize, low: Self, high: Self) -> Self {
    self.most(at, low).least(at + 1, high)
  }
}
impl<T: PartialOrd> Bounded for T {}
pub fn least<T: PartialOrd>(at: usize, value: T, bound: T) -> T {
  value.least(at, bound)
}
pub fn most<T: PartialOrd>(at: usize, value: T, bound: T) -> T {
  value.most(at, bound)
}
pub fn kept<T: PartialOrd>(at: usize, value: T, low: T, high: T) -> T {
  value.kept(at, low, high)
}
pub fn report() {
  for (at, seen) in SEEN.iter().enumerate() {
    let [no, yes] = [&seen[0], &seen[1]].map(|s| s.load(Ordering::Relaxed));
    eprintln!("{at} {no} {yes}");
  }
}
"""

# How a bound is written, what takes its place, and the bounds that it has.
BOUNDS = [
    (r"\.min\(", ".least(", 1), (r"\.max\(", ".most(", 1), (r"\.clamp\(", ".kept(", 2),
    (r"\bcmp::min\(", "crate::hits::least(", 1), (r"\bcmp::max\(", "crate::hits::most(", 1),
    (r"(?<![.\w])(?<!fn )clamp\(", "crate::hits::kept(", 2),
]


def until(text, at, ends):
    """Where the first of the ends stands behind `at`, outside of brackets."""
    depth = 0
    while depth > 0 or not text.startswith(ends, at):
        depth += (text[at] in "([") - (text[at] in ")]")
        at += 1
        if at >= len(text):
            return at
    return at


def parted(text, by):
    """The text cut at an operator that stands outside of brackets."""
    parts, at = [], 0
    while True:
        end = until(text, at, by)
        parts.append(text[at:end])
        if end >= len(text):
            return parts
        at = end + len(by)


class Counters:
    """The places that were given a counter: (file, line, text, is an arm)."""

    def __init__(self, each):
        self.places = []
        self.each = each

    def new(self, file, line, text, arm):
        self.places.append((file, line, " ".join(text.split()), arm))
        return len(self.places) - 1

    def operands(self, file, line, condition):
        """The condition with a counter at each operand of `||` and `&&`."""
        for operator in ("||", "&&"):
            parts = parted(condition, operator)
            if len(parts) > 1:
                return operator.join(self.operands(file, line, part) for part in parts)
        bare = condition.strip()
        if bare.startswith("(") and until(bare, 1, ")") == len(bare) - 1 and ("||" in bare or "&&" in bare):
            return f" ({self.operands(file, line, bare[1:-1])}) "
        newlines = "\n" * condition.count("\n")
        return f" crate::hits::side({self.new(file, line, bare, False)}, {bare}){newlines} "

    def conditions(self, file, text):
        """The text with a counter at each condition of an `if` or a `while`."""
        done, at = "", 0
        for found in re.finditer(r"\b(?:if|while)\b", text):
            start, end = found.end(), until(text, found.end(), "{")
            condition, line = text[start:end], text.count("\n", 0, start) + 1
            whole = text[text.rfind("\n", 0, start) + 1:end + 1]
            if condition.lstrip().startswith("let "):
                pattern, value = condition.split(" = ", 1)
                condition = f"{pattern} = crate::hits::some({self.new(file, line, whole, False)}, {value.strip()}) "
            elif self.each:
                condition = self.operands(file, line, condition)
            elif "\n" not in condition:
                condition = f" crate::hits::side({self.new(file, line, whole, False)},{condition}) "
            done, at = done + text[at:start] + condition, end
        return done + text[at:]

    def bounds(self, file, text):
        """The text with a counter at each bound of a `min`, a `max` and a `clamp`."""
        lines = []
        for number, line in enumerate(text.split("\n"), 1):
            whole = line
            for pattern, call, count in BOUNDS:
                def counted(_, number=number, whole=whole, call=call, count=count):
                    kinds = ["the bound"] if count == 1 else ["the lower bound", "the upper bound"]
                    at = [self.new(file, number, f"{kind} counts: {whole}", False) for kind in kinds]
                    return f"{call}{at[0]}, "

                line = re.sub(pattern, counted, line)
            lines.append(line)
        return "#[allow(unused_imports)] use crate::hits::Bounded; " + "\n".join(lines)

    def counted(self, file, text):
        text = re.sub(r"//.*", "", text)
        if self.each:
            text = self.bounds(file, text)
        lines = []
        for number, line in enumerate(self.conditions(file, text).splitlines(), 1):
            whole = line

            def sign(found, number=number, whole=whole):
                at = self.new(file, number, whole, False)
                return f"(crate::hits::side({at}, {found[1]}) as i64)"

            def arm(found, number=number, whole=whole):
                at = self.new(file, number, whole, True)
                return f"=> {{ crate::hits::arm({at}); {found[1]} }}"

            line = re.sub(r"\(\(([a-z] < 0)\) as i64\)", sign, line)
            line = re.sub(r"=> ([^{]+?),\s*$", arm, line)
            line = re.sub(r"=> \{\s*$", lambda _: f"=> {{ crate::hits::arm({self.new(file, number, whole, True)});", line)
            lines.append(re.sub(r"\bconst fn\b", "fn", line))
        return "\n".join(lines) + "\n"


def main():
    if len(sys.argv) != 3 and sys.argv[3:] != ["each"]:
        sys.exit("use: branches.py OUT_DIR QUESTIONS [each]")
    checked, out = pathlib.Path(sys.argv[1]) / "checked", pathlib.Path(sys.argv[1]) / "branches"
    out.mkdir(exist_ok=True)
    counters = Counters(sys.argv[3:] == ["each"])
    for source in sorted(checked.glob("*.rs")):
        text = source.read_text(encoding="utf-8")
        if source.name in FILES:
            text = counters.counted(source.name, text)
        elif source.name == "main.rs":
            text = text.replace("mod checks;", "mod checks;\nmod hits;", 1)
            text = text.replace("fn main() -> ExitCode {\n  match run() {", "fn main() -> ExitCode {\n  let done = run();\n  hits::report();\n  match done {", 1)
        elif source.name == "checks.rs":
            text = text.replace("const fn", "fn")
        (out / source.name).write_text(text, encoding="utf-8")
    count = len(counters.places)
    (out / "hits.rs").write_text(HITS % (count, count), encoding="utf-8")
    program = out / "qindex-branches"
    subprocess.run(
        ["rustc", "--edition", "2021", "-A", "warnings", "-O", "-C", "overflow-checks=on", "-C", "debug-assertions=on",
         "-o", program, out / "main.rs"],
        check=True,
    )
    with open(sys.argv[2], encoding="utf-8") as questions:
        done = subprocess.run([program], stdin=questions, capture_output=True, text=True, check=True)
    sides, missed = 0, []
    for row, (file, line, text, arm) in zip(done.stderr.splitlines(), counters.places):
        no, yes = (int(word) for word in row.split()[1:])
        for name, taken in (("taken", yes),) if arm else (("true", yes), ("false", no)):
            sides += 1
            if taken == 0:
                missed.append(f"{file}:{line}: never {name}: {text}")
    print(f"{sides - len(missed)} of {sides} sides taken")
    print("\n".join(missed))


main()
