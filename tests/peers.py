#!/usr/bin/env python3
"""Compares `solve` with other solvers, to which the same lists are given as SMT-LIB (QF_BV).

    tests/peers.py [--sizes 4,16,64] [--runs 3] [--limit 60]

makes the generated list of each size, solves it by the program and by z3, cvc5 and boolector, as far
as they are installed (Debian's packages have these names), RUNS times each in turn, and prints the
medians of the processor seconds of whole commands and their ratios to the program's. A solver is
stopped after LIMIT seconds. Only the ratios of one run tell something: machines differ from hour to
hour. Ends with status 1 where answers contradict each other.

    tests/peers.py --smt MODEL LIST

prints a list for a model (a model's text) as SMT-LIB. A solution is an image that meets the list.

    tests/peers.py --selftest

reads such texts again by a strict reader that checks sorts, puts images in and evaluates: an image
that meets its list has to satisfy every assertion, one that breaks it has to break one. Where the
program is built, its own images and such with one wrong bit are tried beside `replay`; where solvers
are installed, they have to agree with what is known of some lists, and with `solve` on random ones.

smt_write.py says how a list is written, smt_read.py how it is read again.
"""
from __future__ import annotations

import argparse
import contextlib
import os
import random
import resource
import shutil
import signal
import statistics
import subprocess
import sys
import tempfile
from pathlib import Path
from typing import Iterator

from smt_read import Script, Unlawful, Values
from smt_write import Requests, read_requests, smt_of
from texts import Model, Refused, end, read_image, read_model

TOP = Path(__file__).resolve().parent.parent
PROGRAM = Path(os.environ.get("DEEPTRANS", TOP / "crates/deeptrans/out/deeptrans"))
SV39 = TOP / "examples/sv39/model"
SPLITS, SEED = "10000", "1"
SOLVERS = {"z3": ["z3", "-smt2"], "cvc5": ["cvc5", "--lang=smt2"], "boolector": ["boolector", "--smt2"]}


# ---- the same lists for all solvers

def measured(words: list[str], limit: int) -> tuple[float, str]:
    """The processor seconds of a command, and the first word that it prints; none where it was stopped."""
    with tempfile.TemporaryFile() as out:
        child = subprocess.Popen(words, stdin=subprocess.DEVNULL, stdout=out, stderr=subprocess.DEVNULL)
        with contextlib.suppress(ProcessLookupError):  # it may have ended already
            resource.prlimit(child.pid, resource.RLIMIT_CPU, (limit, limit + 1))
        _, status, usage = os.wait4(child.pid, 0)
        child.returncode = os.waitstatus_to_exitcode(status)
        out.seek(0)
        said = (out.read(200).split() or [b"nothing"])[0].decode(errors="replace")
    stopped = child.returncode in (-signal.SIGXCPU, -signal.SIGKILL)
    return usage.ru_utime + usage.ru_stime, "stopped" if stopped else said


def installed() -> dict[str, list[str]]:
    there = {name: words for name, words in SOLVERS.items() if shutil.which(name)}
    for name in SOLVERS:
        if name not in there:
            print(f"skipped: {name} isn't installed")
    return there


def made_list(size: int) -> bytes:
    return subprocess.run([PROGRAM, "make", str(size)], stdout=subprocess.PIPE, check=True).stdout


def compare(sizes: list[int], runs: int, limit: int) -> int:
    if not (solvers := installed()):
        return 0
    model, contradicted = read_model(str(SV39)), False
    with tempfile.TemporaryDirectory() as folder:
        asked, text = Path(folder) / "list", Path(folder) / "list.smt2"
        for size in sizes:
            asked.write_bytes(made_list(size))
            text.write_text(smt_of(model, read_requests(str(asked))))
            commands = {"solve": [str(PROGRAM), "solve", "@sv39", str(asked), SPLITS, SEED]}
            commands |= {name: words + [str(text)] for name, words in solvers.items()}
            contradicted |= told(f"make {size}", commands, runs, limit)
    return int(contradicted)


def told(title: str, commands: dict[str, list[str]], runs: int, limit: int) -> bool:
    """Runs the commands in turn and prints their times; whether two answers contradict each other."""
    seconds: dict[str, list[float]] = {name: [] for name in commands}
    answers = {}
    for _ in range(runs):
        for name, words in commands.items():
            if answers.get(name) != "stopped":
                took, answers[name] = measured(words, limit)
                seconds[name].append(took)
    medians = {name: statistics.median(each) for name, each in seconds.items()}
    ours, best = medians["solve"], min(medians[name] for name in commands if name != "solve")
    for name, median in medians.items():
        more = ">" if answers[name] == "stopped" else ""
        print(f"{title}\t{name}\t{answers[name]}\t{more}{median:.4f} s\t{more}{median / max(ours, 1e-6):.1f}")
    times = best / max(ours, 1e-6)
    print(f"{title}\tthe best other one takes {times:.1f} times as long as solve", flush=True)
    yes = any(answer in ("image", "sat") for answer in answers.values())
    return yes and any(answer in ("impossible", "unsat") for answer in answers.values())


# ---- the test of the texts

UNLAWFUL = [("(_ bv3 2)", "(_ bv4 2)"), ("(_ BitVec 64)", "(_ BitVec 63)"), ("bvcomp", "bvcmp"),
            ("(check-sat)", "(check-sat))"), ("(assert ", "(assert (not "), ("extract 63 60", "extract 64 60"),
            ("=> (and", "=> (bvand"), ("QF_BV", "BV"), ("at.a0.r2 () Bool", "at.a0.r2 () (_ BitVec 1)"),
            ("declare-fun at.a0.sign", "declare-fun at.a0.mode"), ("declare-fun", "define-fun"),
            ("word.a0.r2 ()", "word.a0.r2 (Bool)")]
TWO_WAYS = """model 1
word 64
address 16
input x 1
var p 16
node a if x b c
node b let p 16:0x100 d
node c let p 16:0x200 d
node d done p 12
end
"""
KNOWN = [("t1/result", "sat"), ("t1/on_table", "unsat"), ("claims/list", "sat"), ("claims/never", "unsat"),
         ("sv39/list", "sat"), ("guide/wish", "sat"), ("guide/never", "unsat")]


def scripted(model: str, asked: str) -> tuple[Model, Requests, Script]:
    read, wished = read_model(model), read_requests(asked)
    return read, wished, Script(smt_of(read, wished))


def solved_by(solvers: dict[str, list[str]], model: str, asked: str, want: str) -> Iterator[tuple[str, bool]]:
    with tempfile.NamedTemporaryFile("w", suffix=".smt2") as file:
        file.write(smt_of(read_model(model), read_requests(asked)))
        file.flush()
        for name, words in solvers.items():
            answer = measured(words + [file.name], 60)[1]
            yield f"{name} says {answer} in place of {want} of {asked}", answer in (want, "stopped")


def examples() -> Iterator[tuple[str, bool]]:
    """The stored images, each of which is known to meet its list or to break one of its claims."""
    folder = TOP / "examples"
    for model, asked, image in [
            ("claims", "list", "image"), ("sv39", "list", "image"), ("t1", "result", "image"),
            ("t1", "demands", "image"), ("two_level", "mapped", "image")]:
        read, wished, script = scripted(str(folder / model / "model"), str(folder / model / asked))
        values = Values(script, read, wished, read_image(str(folder / model / image), read))
        yield f"{model}/{asked} with {image}: {values.broken()[:1]}", not values.broken()
    read, wished, script = scripted(str(folder / "claims/model"), str(folder / "claims/list"))
    for broken in sorted((folder / "claims/broken").iterdir()):
        values = Values(script, read, wished, read_image(str(broken), read))
        yield f"{broken.name} breaks nothing", bool(values.broken())


def small() -> Iterator[tuple[str, bool]]:
    """Every operator, and a variable that two nodes assign: values that were worked out by hand."""
    operators = (TOP / "tests/tools/operators").read_text()
    image = (TOP / "tests/tools/operators_image").read_text()
    for model, image, lo, hi, cell, pa in [
            (operators, image, 0x1000, 0x2000, "range cell table 0x17d0 0x17d0\n", 0x3005),
            (TWO_WAYS, "image 1\ntables 0x0 0x0\ncontext\naccess 0 0x1\nend\n", 0, 0, "", 0x100),
            (TWO_WAYS, "image 1\ntables 0x0 0x0\ncontext\naccess 0 0x0\nend\n", 0, 0, "", 0x200)]:
        for wished in (pa, pa + 1):
            asked = (f"requests 1\ntables {lo} {hi}\ncontext c0\naccess a0 c0\n"
                     f"{cell}range pa {wished} {wished}\nend\n")
            with tempfile.TemporaryDirectory() as folder:
                names = [f"{folder}/{name}" for name in ("model", "list", "image")]
                for name, text in zip(names, (model, asked, image)):
                    Path(name).write_text(text)
                read, told, script = scripted(*names[:2])
                broken = Values(script, read, told, read_image(names[2], read)).broken()
            yield f"{wished:#x} of a small model: {broken}", bool(broken) == (wished != pa)


def unlawful() -> Iterator[tuple[str, bool]]:
    """Texts with something wrong, each of which the reader has to refuse."""
    text = smt_of(read_model(str(SV39)), read_requests(str(TOP / "examples/sv39/list")))
    for right, wrong in UNLAWFUL:
        changed = text.replace(right, wrong, 1)
        try:
            Script(changed)
            refused = False
        except (Unlawful, ValueError, IndexError, TypeError, KeyError):
            refused = True
        yield f"`{wrong}` is read", refused and changed != text


def random_lists(runs: int) -> Iterator[tuple[str, bool]]:
    """The random lists and images of tests/judge.py, beside that script's own judge."""
    import judge
    draw, base, model = random.Random(1), judge.example(), read_model(str(TOP / "examples/claims/model"))
    with tempfile.TemporaryDirectory() as folder:
        for run in range(runs):
            image = judge.changed(draw, base)
            asked = judge.asked_of(draw, image)
            (Path(folder) / "list").write_text(judge.list_text(image, asked))
            (Path(folder) / "image").write_text(judge.image_text(image))
            wished = read_requests(f"{folder}/list")
            script = Script(smt_of(model, wished))
            values = Values(script, model, wished, read_image(f"{folder}/image", model))
            yield f"the random list {run}", (not values.broken()) == all(judge.claims(image, asked))


def solved_by_all(runs: int, solvers: dict[str, list[str]]) -> Iterator[tuple[str, bool]]:
    """Random lists of tests/judge.py with demands about a second image: `solve` and each solver agree."""
    import judge
    draw, base, model = random.Random(2), judge.example(), str(TOP / "examples/claims/model")
    with tempfile.TemporaryDirectory() as folder:
        asked, text = f"{folder}/list", f"{folder}/list.smt2"
        for run in range(runs):
            image = judge.changed(draw, base)
            wished = judge.asked_of(draw, image)
            other = judge.asked_of(draw, judge.changed(draw, image))["demands"]
            wished["demands"][0] += other[0][:1] + other[-1][:1]
            Path(asked).write_text(judge.list_text(image, wished))
            Path(text).write_text(smt_of(read_model(model), read_requests(asked)))
            status = said(["solve", model, asked, SPLITS, SEED]).returncode
            for name, words in solvers.items():
                answer = measured(words + [text], 60)[1]
                agreed = (status, answer) in ((0, "sat"), (1, "unsat")) or status == 2 or answer == "stopped"
                yield f"list {run}: status {status}, and {name} says {answer}", agreed


def changed_image(draw: random.Random, text: str) -> str:
    """The image with one bit of a register, an input or a word turned."""
    lines = text.splitlines()
    at = draw.choice([at for at, line in enumerate(lines) if line.startswith(("context", "access", "word"))])
    kind, *words = lines[at].split()
    part = 1 if kind == "word" else draw.randrange(kind == "access", len(words))
    bits = 64 if kind == "word" or part == (kind == "access") else 1
    words[part] = hex(int(words[part], 0) ^ 1 << draw.randrange(bits))
    return "\n".join([*lines[:at], " ".join([kind, *words]), *lines[at + 1:], ""])


def said(words: list) -> subprocess.CompletedProcess:
    return subprocess.run([PROGRAM, *words], stdout=subprocess.PIPE, text=True)


def own_images() -> Iterator[tuple[str, bool]]:
    """Images that `solve` prints for generated lists, and the same with one wrong bit, beside `replay`."""
    draw, model = random.Random(1), read_model(str(SV39))
    with tempfile.TemporaryDirectory() as folder:
        asked, image = Path(folder) / "list", Path(folder) / "image"
        for size in (1, 2, 4, 8):
            asked.write_bytes(made_list(size))
            wished = read_requests(str(asked))
            script = Script(smt_of(model, wished))
            made = said(["solve", "@sv39", asked, SPLITS, SEED])
            for turn in range(40):
                image.write_text(changed_image(draw, made.stdout) if turn else made.stdout)
                judged = said(["replay", "@sv39", asked, image])
                values = Values(script, model, wished, read_image(str(image), model))
                meets = not values.broken()
                agreed = judged.returncode == (0 if meets else 1)
                yield f"make {size}, change {turn}: {judged.stdout.strip()}", agreed and (turn > 0 or meets)


def selftest() -> int:
    parts = [examples(), small(), unlawful(), random_lists(150)]
    if os.access(PROGRAM, os.X_OK):
        parts.append(own_images())
    else:
        print("skipped: the program isn't built, so none of its images is tried")
    solvers, folder = installed(), TOP / "examples"
    if solvers and os.access(PROGRAM, os.X_OK):
        parts.append(solved_by_all(30, solvers))
    for asked, want in KNOWN:
        model = folder / asked.split("/")[0] / "model"
        parts.append(solved_by(solvers, str(model if model.exists() else SV39), str(folder / asked), want))
    results = [result for part in parts for result in part]
    for name, passed in results:
        if not passed:
            print(f"FAILED: {name}")
    failed = sum(not passed for _, passed in results)
    print(f"{len(results) - failed} passed, {failed} failed")
    return int(failed > 0)


def main() -> int:
    sys.setrecursionlimit(10**6)
    words = argparse.ArgumentParser(description=__doc__, formatter_class=argparse.RawDescriptionHelpFormatter)
    words.add_argument("--sizes", default="4,16,64", help="numbers of accesses, from 1 to 64")
    words.add_argument("--runs", type=int, default=3)
    words.add_argument("--limit", type=int, default=60, help="seconds for a solver")
    words.add_argument("--smt", nargs=2, metavar=("MODEL", "LIST"), help="print a list as SMT-LIB")
    words.add_argument("--selftest", action="store_true")
    given = words.parse_args()
    if given.smt:
        print(smt_of(read_model(given.smt[0]), read_requests(given.smt[1])), end="")
        return 0
    if given.selftest:
        return selftest()
    if not os.access(PROGRAM, os.X_OK):
        raise Refused(f"{PROGRAM}: the program isn't built")
    return compare([int(size) for size in given.sizes.split(",")], given.runs, given.limit)


if __name__ == "__main__":
    end(main)
