#!/bin/sh
# Times the lexer, the parser and the check of the whole language on a text of 1 MiB, beside python3's ast.parse and luac5.4 -p on like ones.
# usage: scripts/bench-parser.sh [ROUNDS]. Needs rt, python3 and luac5.4. The benchmark's crate is built in a copy of the repository.
set -eu

. "$(dirname "$0")/bench-crate.sh"

bench_crate parser_bench "$top/benches/parser/parser.rt.txt" 'dpl_syntax dpl_lexer dpl_parser dpl_checker bumpalo' \
    dpl_sets dpl_syntax dpl_lexer dpl_grammar dpl_history dpl_language dpl_agreement dpl_lowered dpl_words dpl_memory \
    dpl_nodes dpl_rules dpl_says dpl_sound dpl_tree dpl_types dpl_scopes dpl_deeds dpl_bodies dpl_typed \
    dpl_operators dpl_brackets dpl_elaborator dpl_bound dpl_assignments dpl_mapped dpl_heads dpl_prints dpl_declarations \
    dpl_checker dpl_limits dpl_spelling dpl_expressions dpl_statements dpl_parser
bench_build parser_bench
python3 - "$work/crates/parser_bench/out/parser_bench" "$top/benches/parser" "$rounds" <<'END'
import ast, resource, subprocess, sys, tempfile, time

program, lines, rounds = sys.argv[1], sys.argv[2], int(sys.argv[3])
MIB = 1048576

def repeated(name):
    with open(f"{lines}/{name}") as file:
        part = file.read()
    return part * (MIB // len(part))

def best(call):
    times = []
    for _ in range(rounds):
        start = time.perf_counter()
        call()
        times.append(time.perf_counter() - start)
    return min(times)

def show(what, seconds, length):
    print(f"{what:<24} {seconds * 1e3:9.2f} ms {length / seconds / 1e6:8.1f} MB/s")

runs = [[int(word) for word in subprocess.run([program], capture_output=True, text=True).stdout.split()] for _ in range(rounds)]
if runs[0][3] == 0:
    sys.exit("the text was refused")
show("lex", min(run[0] for run in runs) / 1e9, runs[0][2])
show("lex and parse", min(run[1] for run in runs) / 1e9, runs[0][2])
show("lex, parse and check", min(run[4] for run in runs) / 1e9, runs[0][2])
peak = resource.getrusage(resource.RUSAGE_CHILDREN).ru_maxrss * 1024
print(f"{runs[0][3]} statements, {peak / MIB:.1f} MiB at the most: text, tokens, tree and deeds")
text = repeated("lines.py")
show("python3 ast.parse", best(lambda: ast.parse(text)), len(text))
with tempfile.NamedTemporaryFile("w", suffix=".lua") as file:
    text = repeated("lines.lua")
    file.write(text)
    file.flush()
    show("luac5.4 -p, a process", best(lambda: subprocess.run(["luac5.4", "-p", file.name], check=True)), len(text))
END
