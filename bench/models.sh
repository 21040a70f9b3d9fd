#!/usr/bin/env bash
# Lexes and parses models of 1, 2 and 4 MB, and bad texts of 4,194,304 bytes, by a small program
# over `ili_lexer` and `ili_grammar` that is built in a scratch folder. Prints, for each text, the
# answer, the CPU time as a multiple of that of the 1 MB model, and the peak memory as a multiple
# of the text's length.
#
# usage: bench/models.sh      (building proves both crates anew: some ten minutes)
. "$(dirname "${BASH_SOURCE[0]}")/begin.sh"
. "$top/bench/scratch.sh"
below='ports ili_lexer ili_grammar'
scratch_crate models_bench "$below" $below
cat > "$crate/src/main.rt" <<'END'
// Lexes and parses the text of `model.ili`.
#![tactic(auto)]

use ili_grammar::{SyntaxFault, parse};
use ili_lexer::lex;
use ports::{Memory, RealShelf, Shelf};
use std::alloc::Global;

fn main(rt: HostRuntime) {
    let alloc = rt.alloc();
    let mut shelf = RealShelf::new(rt);
    let Ok(text) = whole_file(alloc, &mut shelf, "model.ili") else {
        return;
    };
    if text.len() > 4194304 {
        return;
    }
    match lex(alloc, &text) {
        Err(fault) => {
            let _ = println!(rt; "{fault}");
        }
        Ok(tokens) => match parse(alloc, &text, &tokens) {
            Ok(_) => {
                let _ = println!(rt; "{} tokens, a model", tokens.len());
            }
            Err(SyntaxFault::Memory) => {
                let _ = println!(rt; "{} tokens, out of memory", tokens.len());
            }
            Err(SyntaxFault::At { code, token: Some(token) }) => {
                let _ = println!(rt; "{} tokens, {code:?} at {token}", tokens.len());
            }
            Err(SyntaxFault::At { code, token: None }) => {
                let _ = println!(rt; "{} tokens, {code:?} at the end", tokens.len());
            }
        },
    }
}
END
build_scratch_crate
mkdir texts
python3 - <<'PY'
FULL = 4_194_304


def model(size):
    """A model of at most so many bytes: one topic with many tables."""
    table = (
        "TABLE T{0} = !! a comment\n"
        "  Number: OPTIONAL [0 .. 999999];\n"
        "  Place: Point;\n"
        "  Form: AREA WITH (STRAIGHTS, ARCS) VERTEX Point WITHOUT OVERLAPS > 0.050;\n"
        "  Kind: (house, street (paved, gravel), water (still, flowing));\n"
        "IDENT Number;\nEND T{0};\n"
    )
    head, tail = (
        "TRANSFER One;\nDOMAIN Point = COORD2 480000.000 70000.000 840000.000 300000.000;\n"
        "MODEL M\nTOPIC T =\n"
    ), (
        "END T.\nEND M.\nFORMAT FREE;\n"
        "CODE BLANK = DEFAULT, UNDEFINED = DEFAULT, CONTINUE = DEFAULT; TID = ANY; END.\n"
    )
    parts, length, number = [head], len(head) + len(tail), 0
    while length < size - 600:
        parts.append(table.format(number))
        length += len(parts[-1])
        number += 1
    return ("".join(parts) + tail).encode()


texts = [
    ("a model of 1 MB", model(1 << 20)),
    ("a model of 2 MB", model(2 << 20)),
    ("a model of 4 MB", model(4 << 20)),
    ("binary bytes", bytes(range(256)) * (FULL // 256)),
    ("opening brackets", b"(" * FULL),
    ("slashes", b"/" * FULL),
    ("digits", b"7" * FULL),
    ("one name", b"n" * FULL),
    ("nested enumerations", (b"TRANSFER One; DOMAIN D = " + b"(a " * FULL)[:FULL]),
]
for number, (name, text) in enumerate(texts):
    with open(f"texts/{number} {name}", "wb") as file:
        file.write(text)
PY
PYTHONPATH="$top/bench" python3 - "$program" <<'PY'
import os, sys
from runs import once


def run(path):
    """The answer, the CPU seconds and the peak memory in bytes of the program on a text."""
    os.link(path, "model.ili")
    best = None
    for _ in range(3):
        status, cpu, peak = once(sys.argv[1:2], "answer")
        if status:
            sys.exit(f"{path}: ended with {status}")
        best = cpu if best is None else min(best, cpu)
    os.unlink("model.ili")
    with open("answer", "rb") as file:
        answer = file.read(1000).decode().strip()
    return answer, best, peak


first = None
for name in sorted(os.listdir("texts")):
    path = f"texts/{name}"
    answer, cpu, peak = run(path)
    first = first or cpu
    speed = "under a second" if cpu < 1 else "OVER A SECOND"
    memory = peak / os.path.getsize(path)
    print(f"{name[2:]}: {answer}; {cpu / first:.2f} times the first, {speed}; memory {memory:.1f} times the text")
PY
