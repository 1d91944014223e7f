#!/usr/bin/env python3
"""Lists the places in src/ that could be written in another form, by the points of docs/DESIGN-PASS.md.

    python3 tools/places.py [-v] [COMMIT]     counts of each point, of the work tree or of a commit; -v prints each line
"""
import re
import subprocess
import sys

# Each point: what is looked for, and a pattern of one line (POSIX, as git grep -E takes it).
PATTERNS = [
    ("1", "enums", r"^ *(pub(\(crate\))? )?enum "),
    ("1", "flags in a struct or a signature", r"^ +(pub(\(crate\))? )?[a-z_]+: bool,"),
    ("1", "a number beside an Option that says whether it means anything", r"number: u64, value: Option|^ +(pub )?value: Option<V>,"),
    ("1", "numbers in place of a kind or of nothing", r"\) -> u8$|chain: 64|chain < 64|\bn; 64\]"),
    ("1", "an error made by hand after a failed match", r"Err\(_\) => Err\(|Err\((refusal|_)\) => (Err|\{)|let Ok\(\(?\)?\) = .* else \{"),
    ("2", "arms that differ in a seat", r"if seat == [01]|seat[01]: Manager|conflicts[01]: &"),
    ("2", "functions that differ in a type or a constant", r"fn (look_up_in|place_in|find|look|number|count|calls_of|on_shelf|on_chains|on_shelf_and_sheet|on_chains_and_strip|with_sheet|with_strip|run_on|with_tables|counts|cards|put_all|find_all|mark_all|drop_all|place_both|drop_both|look_both|move_down|move_up|index_down|index_up|insert_in|remove_in|write_in|insert_at|remove_at|rank|seek|blank|no_record)\b"),
    ("3", "loops", r"^ *(while|loop|for) .*"),
    ("4", "impls of std's traits", r"^impl.* (fmt::Display|fmt::Debug|From<.*>|TryFrom<.*>|FromStr|PartialEq|Ord|PartialOrd|Clone) for "),
    ("4", "comparisons, conversions and texts by hand", r"fn (is_newer|is_same|is_in_reach|is_before|stands_at|is_full|is_from_1_to|answer_of_number|answer_of_read|value_found|line_of|call_of|is_expected|begins_with)\b|struct [A-Za-z]+Text\b"),
    ("5", "rows and conflict tables as parameters beside one another", r"^ +(rows|conflicts0|conflicts1): &(mut )?Table<"),
    ("5", "what a database means, spelled out", r"database (engine\.[a-z]+|e) rows\."),
    ("5", "facts of a value in a contract", r"(requires|ensures)( [a-z_0-9]+)? \{ (Sound |\(?1 ≤ capacity|.*length t\.old\.bytes|.*\(m ≤ 2000\)|Ascending|n ≤ length s\.now)"),
    ("6", "lengths beside a buffer", r"^ +(pub(\(crate\))? )?(len|held|count|places|free): usize,"),
    ("6", "lent slices and arrays in a struct", r"^ +(pub(\(crate\))? )?[a-z_]+: (&'a mut \[|\[)"),
    ("7", "switches on what to run", r"match pair|if strip \{|if timed \{"),
]


def lines(pattern, commit):
    command = ["git", "grep", "-nE", pattern] + ([commit] if commit else []) + ["--", "crates/*/src/*.rt"]
    said = subprocess.run(command, capture_output=True, text=True).stdout.splitlines()
    return [line.split(":", 1)[1] if commit else line for line in said]


def main():
    words = sys.argv[1:]
    verbose = "-v" in words
    rest = [word for word in words if word != "-v"]
    commit = rest[0] if rest else None
    for point, what, pattern in PATTERNS:
        found = lines(pattern, commit)
        print(f"{point}  {len(found):3}  {what}")
        if verbose:
            for line in found:
                print("       ", re.sub(r"\s+", " ", line))


main()
