"""The program as a WebAssembly module: the bitcode of the build without proofs, translated and linked."""

import os
import shutil
import subprocess
import sys
import time
from collections.abc import Iterable
from pathlib import Path

TOP = Path(__file__).resolve().parents[2]
CRATE = TOP / "crates" / "ramseg"
CACHE = Path(os.environ.get("XDG_CACHE_HOME") or Path.home() / ".cache") / "sevunthi" / "page"
OUT = CRATE / "out" / "page" if os.access(CRATE, os.W_OK) else CACHE
"""Where what is built goes: beside the program, or into the user's cache where the clone can't be written."""
MACHINE = TOP / "page" / "live" / "machine.c"
TOLD_EACH = 10
"""After how many seconds it is told how long a step takes."""
STACK = 16 << 20
"""The program's stack, in bytes."""
TARGET = ["--target=wasm64-unknown-unknown", "--no-default-config", "-fno-crash-diagnostics"]
FEATURES = ["--enable-memory64", "--enable-bulk-memory", "--enable-sign-ext", "--enable-mutable-globals"]


class NotBuilt(Exception):
    """It could not be built; it says why."""


def kit() -> Path:
    """The folder of Rattle's kit."""
    command = shutil.which("rt")
    if command is None:
        raise NotBuilt("there is no rt: it is the command of Rattle's kit")
    return Path(command).resolve().parents[1]


def lacking() -> str | None:
    """What is not there that a build needs, in words; nothing, where all is."""
    if shutil.which("rt") is None:
        return "there is no rt, the command of Rattle's kit"
    if not (kit() / "toolchain/bin/clang").exists():
        return "the kit has no clang"
    return None if shutil.which("wasm-ld") else "there is no wasm-ld (Debian's package lld has it)"


def rules() -> list[str]:
    """The rules that can be broken."""
    return sorted(file.stem for file in (TOP / "wrong" / "code").glob("*.edit"))


def edit_of(rule: str) -> Path:
    """The file that breaks a rule."""
    return TOP / "wrong" / "code" / f"{rule}.edit"


def is_stale(built: Path, sources: Iterable[Path]) -> bool:
    """Whether a file is not there, or older than one that it is made of."""
    return not built.exists() or any(file.stat().st_mtime > built.stat().st_mtime for file in sources)


def sources(rule: str | None) -> list[Path]:
    """What the program is made of, perhaps with a rule broken."""
    files = [file for kind in ("*.rt", "*.antt") for file in TOP.glob(f"crates/*/*/{kind}")]
    return [TOP / "crates.txt", *files, *([edit_of(rule)] if rule else [])]


def run(words: list[str | Path], what: str, step: str = "") -> None:
    """Runs a command. A step that takes long is told each ten seconds. Where it fails, what it said is told."""
    begun = time.monotonic()
    with subprocess.Popen(list(map(str, words)), stdin=subprocess.DEVNULL, stdout=subprocess.PIPE,
                          stderr=subprocess.STDOUT, text=True, errors="replace") as worker:
        try:
            while True:
                try:
                    said, _ = worker.communicate(timeout=TOLD_EACH)
                    break
                except subprocess.TimeoutExpired:
                    seconds = time.monotonic() - begun
                    print(f"ramseg: step {step or '3 of 3: linking'}, {seconds:.0f} s", file=sys.stderr, flush=True)
        except BaseException:
            worker.terminate()
            raise
    if worker.returncode != 0:
        killed = ": it was killed, as a machine does that runs out of memory" if worker.returncode in (-9, 137) else ""
        raise NotBuilt(f"{what}{killed}:\n" + "\n".join(said.splitlines()[-40:]))


def translated(rule: str | None) -> Path:
    """The program, perhaps with a rule broken, translated and not linked, built where a source is newer."""
    built = OUT / (rule or "right") / "program.o"
    if is_stale(built, sources(rule)):
        room = OUT / "room"
        shutil.rmtree(room, ignore_errors=True)
        room.mkdir(parents=True)
        edit = ["--edit", edit_of(rule)] if rule else []
        run([TOP / "scripts/build-unproved", room, *edit, "--bitcode", "--crate", "ramseg"], "the program was not built",
            "1 of 3: compiling the crates")
        code = room / "module.bc"
        if not code.exists():
            raise NotBuilt("the program was not built: there is no bitcode of it")
        run([kit() / "toolchain/bin/clang", *TARGET, "-O1", "-c", "-x", "ir", code, "-o", room / "program.o"],
            "the program was not translated", "2 of 3: translating it")
        built.parent.mkdir(parents=True, exist_ok=True)
        (room / "program.o").rename(built)
        shutil.rmtree(room)
    return built


def linked(program: Path, to: Path) -> None:
    """Links the program with the machine of page/live/machine.c."""
    machine = to.with_name("machine.o")
    run([kit() / "toolchain/bin/clang", *TARGET, "-O2", "-ffreestanding", "-fno-builtin", "-c", MACHINE, "-o", machine],
        "machine.c was not translated")
    run(["wasm-ld", "-mwasm64", "--no-entry", "--export=main", "--allow-undefined", "--gc-sections", "--strip-all", "-z",
         f"stack-size={STACK}", program, machine, "-o", to], "the module was not linked")
    machine.unlink()


def module(rule: str | None = None) -> tuple[Path, bool]:
    """The module, perhaps with a rule broken, built where a source is newer; and whether its addresses have 64 bits.
    Where wasm-opt is installed (Debian's binaryen) they get 32, which every browser has."""
    program, has_short = translated(rule), shutil.which("wasm-opt") is not None
    long, short = program.with_name("long.wasm"), program.with_name("short.wasm")
    if is_stale(long, (program, MACHINE)):
        linked(program, long)
    if has_short and is_stale(short, (long,)):
        run(["wasm-opt", *FEATURES, "--memory64-lowering", long, "-o", short], "its addresses were not shortened")
    return (short, False) if has_short else (long, True)
