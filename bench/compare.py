#!/usr/bin/env python3
"""Measures scevd beside opt and mlir-opt on the same modules, in one run on one machine.

Each tool is a whole process, from its text to its answer:

- scevd reads the module and answers one `scev` line for each value and one `turns` line for each
  loop.
- opt reads the lowered module and prints `print<scalar-evolution>`: each value and each loop.
- mlir-opt reads the module, verifies it and prints it. It analyses nothing.

The modules are those of a generator, whose functions have sixteen loops each and whose number
grows, and one real program. The tools take turns, so that what else the machine does falls on all
of them. Processor time is what the system says of the ended process (user and system, all
threads). This is no test: it prints figures and judges none. Only scevd's answers about the
generated functions are checked, against their closed forms.
"""

import argparse
import os
import re
import shutil
import statistics
import subprocess
import sys
import tempfile
import time
from dataclasses import dataclass
from pathlib import Path

TOP = Path(__file__).resolve().parent.parent
PROGRAM = TOP / "crates/scevd/out/scevd"
SIZES = (8, 16, 32, 64)
LOOPS = 16
WIDTH = 32
COMMANDS_OF_A_SESSION = 1024
SESSIONS = 16
VERSIONS = ("", *(f"-{number}" for number in range(30, 13, -1)))
LEFT_OUT = """\
What these figures leave out:
- opt reads LLVM's text. Lowering the module to it is no part of opt's time; the generator writes
  both texts.
- opt also prints ranges, flags, dispositions and the greatest and predicated counts, which scevd
  doesn't derive. scevd parses its questions, and speaks of wrapped values alone, where opt also
  uses `nsw`, `nuw` and undefined behaviour.
- scevd runs its sessions one after another.
- Each figure holds the start of the process, with its libraries mapped from a warm cache.
- All outputs go to files. Memory is the greatest resident set, shared libraries included.
- Loads and stores, which are most of what opt meets in real programs, aren't in these modules."""


@dataclass
class Figures:
    """What one run of a process took: seconds of processor and of wall time, and KiB of memory."""

    processor: float
    wall: float
    memory: int


def first_factor(function):
    """What one iteration adds per value of the counter, in function number `function`."""
    return function + 2


def iterations(function):
    """The trip count of each loop of function number `function`."""
    return function + 10


def function_text(function):
    """One function of the generator, as MLIR text."""
    constants = {"z": 0, "o": 1, "m": first_factor(function), "k": iterations(function)}
    lines = [f"func.func @g{function}(%a: i{WIDTH}) -> i{WIDTH} {{"]
    lines += [f"  %{name} = arith.constant {value} : i{WIDTH}" for name, value in constants.items()]
    for loop in range(LOOPS):
        start = "%a" if loop == 0 else f"%r{loop - 1}"
        lines += [
            f"  %r{loop} = scf.for %i{loop} = %z to %k step %o"
            f" iter_args(%x{loop} = {start}) -> (i{WIDTH}) : i{WIDTH} {{",
            f"    %y{loop} = arith.muli %i{loop}, %m : i{WIDTH}",
            f"    %s{loop} = arith.addi %x{loop}, %y{loop} : i{WIDTH}",
            f"    scf.yield %s{loop} : i{WIDTH}",
            "  }",
        ]
    return "\n".join([*lines, f"  return %r{LOOPS - 1} : i{WIDTH}", "}", ""])


def lowered_function(function):
    """The same function in LLVM's text, each loop a header with the test, a body and an exit."""
    lines = [f"define i{WIDTH} @g{function}(i{WIDTH} %a) {{", "e:", "  br label %h0"]
    before, start = "e", "%a"
    for loop in range(LOOPS):
        after = f"h{loop + 1}" if loop + 1 < LOOPS else "end"
        lines += [
            f"h{loop}:",
            f"  %i{loop} = phi i{WIDTH} [ 0, %{before} ], [ %n{loop}, %b{loop} ]",
            f"  %x{loop} = phi i{WIDTH} [ {start}, %{before} ], [ %s{loop}, %b{loop} ]",
            f"  %t{loop} = icmp slt i{WIDTH} %i{loop}, {iterations(function)}",
            f"  br i1 %t{loop}, label %b{loop}, label %{after}",
            f"b{loop}:",
            f"  %y{loop} = mul i{WIDTH} %i{loop}, {first_factor(function)}",
            f"  %s{loop} = add i{WIDTH} %x{loop}, %y{loop}",
            f"  %n{loop} = add i{WIDTH} %i{loop}, 1",
            f"  br label %h{loop}",
        ]
        before, start = f"h{loop}", f"%x{loop}"
    return "\n".join([*lines, "end:", f"  ret i{WIDTH} %x{LOOPS - 1}", "}", ""])


def signed(number):
    number %= 2**WIDTH
    return number - 2**WIDTH if number >= 2 ** (WIDTH - 1) else number


def plus(number):
    """The text of the argument plus a number."""
    return "%a" if signed(number) == 0 else f"{signed(number)} + %a"


def generated_questions(function):
    """Every value and loop of a function of the generator, with its answer in closed form."""
    factor, count = first_factor(function), iterations(function)
    total = factor * count * (count - 1) // 2
    known = {"%a": "%a", "%z": "0", "%o": "1", "%m": str(factor), "%k": str(count)}
    rows = [("scev", value, answer) for value, answer in known.items()]
    for loop in range(LOOPS):
        start = plus(loop * total)
        rows += [
            ("scev", f"%i{loop}", f"{{0,+,1}}<#{loop}>"),
            ("scev", f"%x{loop}", f"{{{start},+,0,+,{factor}}}<#{loop}>"),
            ("scev", f"%y{loop}", f"{{0,+,{factor}}}<#{loop}>"),
            ("scev", f"%s{loop}", f"{{{start},+,{factor},+,{factor}}}<#{loop}>"),
            ("scev", f"%r{loop}", plus((loop + 1) * total)),
            ("turns", f"#{loop}", str(count)),
        ]
    return [(f"{ask} @g{function} {what}", answer) for ask, what, answer in rows]


def questions_of(module):
    """One `scev` line for each value and one `turns` line for each loop of a module's text.

    Where a name stands several times, each of its definitions is asked for, with as many results
    as the largest has.
    """
    asked = []
    for text in re.split(r"(?=func\.func)", module):
        head = re.match(r"func\.func\s+(?:private\s+)?(@[\w$.-]+)", text)
        if not head or "{" not in text:
            continue
        name = r"(%[\w$.-]+)"
        packs = re.findall(name + r"(?::(\d+))?(?=\s*(?:,\s*%[\w$.-]+(?::\d+)?\s*)*=)", text)
        typed = [(found, "") for found in re.findall(name + r"\s*:\s*(?:i\d+|index)\s*[,)]", text)]
        definitions = {}
        for value, results in packs + typed:
            count, most = definitions.get(value, (0, 1))
            definitions[value] = (count + 1, max(most, int(results or 1)))
        for value, (count, most) in definitions.items():
            picks = ((k, j) for k in range(1, count + 1) for j in range(most))
            asked += [f"scev {head[1]} {value}!{k}#{j}" for k, j in picks]
        loops = len(re.findall(r"\bscf\.(?:for|while)\b", text))
        asked += [f"turns {head[1]} #{loop}" for loop in range(loops)]
    return asked


def with_sessions(module, questions):
    """The input of scevd: the module, and the questions in as few sessions as they fit."""
    size = COMMANDS_OF_A_SESSION
    parts = [questions[k : k + size] for k in range(0, len(questions), size)]
    if len(parts) > SESSIONS:
        sys.exit(f"{len(questions)} questions don't fit {SESSIONS} sessions of {size} commands")
    lines = [line for k, part in enumerate(parts) for line in (f"== session s{k}", *part)]
    return module + "\n".join(lines) + "\n"


def found_tool(name):
    return next((path for version in VERSIONS if (path := shutil.which(name + version))), None)


def run(command, text, output):
    """Runs a command on a text; its output goes to a file. Gives its figures."""
    with tempfile.TemporaryFile() as source, open(output, "wb") as sink:
        source.write(text.encode())
        source.seek(0)
        start = time.perf_counter()
        process = subprocess.Popen(command, stdin=source, stdout=sink, stderr=subprocess.STDOUT)
        _, status, usage = os.wait4(process.pid, 0)
        wall = time.perf_counter() - start
    process.returncode = os.waitstatus_to_exitcode(status)
    if process.returncode:
        said = Path(output).read_text(errors="replace")[:200]
        sys.exit(f"{command[0]} ends with {process.returncode}: {said}")
    return Figures(usage.ru_utime + usage.ru_stime, wall, usage.ru_maxrss)


def in_turns(jobs, runs, output):
    """The figures of each job, by name, over rounds in which each runs once. The first warms up."""
    figures = {name: [] for name in jobs}
    for round_number in range(runs + 1):
        for name, (command, text) in jobs.items():
            measured = run(command, text, output)
            if round_number:
                figures[name].append(measured)
    return figures


def check(program, text, answers, output):
    """Ends the run where scevd doesn't give these answers."""
    run([program], text, output)
    lines = [line for line in Path(output).read_text().splitlines() if not line.startswith("== ")]
    if lines != answers:
        pairs = (pair for pair in zip(lines, answers) if pair[0] != pair[1])
        wrong = next(pairs, (len(lines), len(answers)))
        sys.exit(f"scevd answers {wrong[0]!r} where {wrong[1]!r} is right")


def jobs_of(tools, module, questions, lowered):
    jobs = {"scevd": ([tools["scevd"]], with_sessions(module, questions))}
    if tools["opt"] and lowered:
        command = [tools["opt"], "-passes=print<scalar-evolution>", "-disable-output"]
        jobs["opt"] = (command, lowered)
    if tools["mlir-opt"]:
        jobs["mlir-opt"] = ([tools["mlir-opt"]], module)
    return jobs


def median_ms(figures, what):
    return 1000 * statistics.median(getattr(one, what) for one in figures)


def print_rows(title, figures, before):
    """One line for each tool, with its growth from the medians `before`. Gives the new medians."""
    medians = {name: median_ms(all_of, "processor") for name, all_of in figures.items()}
    for name, all_of in figures.items():
        least = 1000 * min(one.processor for one in all_of)
        memory = max(one.memory for one in all_of) / 1024
        growth = f"{medians[name] / before[name]:>7.2f}" if before.get(name) else f"{'':>7}"
        share = f"{medians[name] / medians['opt']:>8.3f}" if medians.get("opt") else f"{'':>8}"
        print(
            f"{title:<22} {name:<9} {medians[name]:>9.1f} {least:>9.1f}"
            f" {median_ms(all_of, 'wall'):>9.1f} {memory:>8.1f} {growth} {share}"
        )
    return medians


def measure(tools, runs, output):
    print(
        f"{'module':<22} {'tool':<9} {'median':>9} {'least':>9} {'wall':>9} {'memory':>8}"
        f" {'growth':>7} {'of opt':>8}\n"
        f"{'':<22} {'':<9} {'ms':>9} {'ms':>9} {'ms':>9} {'MiB':>8}"
    )
    empty = jobs_of(tools, "", [], " ")
    print_rows("nothing", in_turns(empty, runs, output), {})
    before = {}
    for size in SIZES:
        module = "".join(map(function_text, range(size)))
        rows = [row for function in range(size) for row in generated_questions(function)]
        lowered = "".join(map(lowered_function, range(size)))
        jobs = jobs_of(tools, module, [ask for ask, _ in rows], lowered)
        check(tools["scevd"], jobs["scevd"][1], [answer for _, answer in rows], output)
        title = f"{size} functions, {len(rows)}"
        before = print_rows(title, in_turns(jobs, runs, output), before)
    module = (TOP / "examples/matmul.mlir").read_text()
    questions = questions_of(module)
    jobs = jobs_of(tools, module, questions, (TOP / "bench/matmul.ll").read_text())
    print_rows(f"matmul.mlir, {len(questions)}", in_turns(jobs, runs, output), {})


def main():
    parser = argparse.ArgumentParser(description=__doc__.splitlines()[0])
    parser.add_argument("--runs", type=int, default=15, help="runs of each tool that count (15)")
    parser.add_argument("--program", default=str(PROGRAM), help="scevd (the gate's)")
    options = parser.parse_args()
    if not os.access(options.program, os.X_OK):
        sys.exit(f"there is no program {options.program}; ./scevd and .ci/run build it")
    tools = {"scevd": options.program, "opt": found_tool("opt"), "mlir-opt": found_tool("mlir-opt")}
    for name, path in tools.items():
        print(f"{name}: {path or 'not installed, left out'}")
    print("Processor time of whole processes; behind each module, how many questions.\n")
    with tempfile.TemporaryDirectory() as folder:
        measure(tools, options.runs, os.path.join(folder, "output"))
    print("\n" + LEFT_OUT)


if __name__ == "__main__":
    main()
