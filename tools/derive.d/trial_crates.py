"""Crates of made modules, in a repository on a copy of the library: they are compiled, laid out and proved."""
import os
import re
import shutil
import subprocess
from pathlib import Path

TOP = Path(__file__).resolve().parent.parent.parent
LIBRARY = ("speedy_base", "speedy_layout", "speedy_read", "speedy_write", "speedy")
ERROR = re.compile(r"^src/(\w+)\.rt:\d+:\d+: error.*", re.MULTILINE)
UNPROVED = re.compile(r"^fn (\S+): (?:not proved|no proof).*", re.MULTILINE)
ROOT = """//! Modules that `tools/derive` made of random files.
#![tactic(auto)]

{modules}
#[test]
fn it_compiles(rt: HostRuntime) {{
    assert!(rt; 1 == 1);
}}
"""


class Repository:
    """A repository on a copy of the library. `proved` is the checkout whose proofs of it are taken."""

    def __init__(self, folder, proved=None):
        self.folder = Path(folder)
        lines = [line for line in (TOP / "crates.txt").read_text(encoding="utf-8").splitlines()
                 if line.partition(":")[0] in LIBRARY]
        for name in LIBRARY:
            shutil.copytree(TOP / "crates" / name, self.folder / "crates" / name, ignore=shutil.ignore_patterns("out"))
        self.lines = lines
        self.write_list()
        self.unproved = [name for name in LIBRARY if proved and not self.take_proof(Path(proved), name)]

    def write_list(self):
        """Writes the list of crates."""
        (self.folder / "crates.txt").write_text("\n".join([*self.lines, ""]), encoding="utf-8")

    def take_proof(self, proved, name):
        """Takes what the check of a crate of the library kept, where there is such: its files, without a copy."""
        kept = proved / "crates" / name / "out" / "rlib"
        if not (kept / "stamp").is_file():
            return False
        shutil.copytree(kept, self.folder / "crates" / name / "out" / "rlib", copy_function=linked)
        return True

    def lay_out(self, name, modules):
        """Writes a crate of these modules, and returns its folder."""
        crate = self.folder / "crates" / name
        shutil.rmtree(crate / "src", ignore_errors=True)
        (crate / "src").mkdir(parents=True)
        listed = "".join(f"pub mod {it};\n" for it in modules)
        (crate / "src" / "lib.rt").write_text(ROOT.format(modules=listed), encoding="utf-8")
        for module, text in modules.items():
            (crate / "src" / f"{module}.rt").write_text(text, encoding="utf-8")
        if f"{name}: speedy" not in self.lines:
            self.lines.append(f"{name}: speedy")
            self.write_list()
        return crate

    def lay_proofs(self, name, answers):
        """Writes the proofs that are made with the modules of a crate, by their paths below its folder."""
        for path, text in answers.items():
            file = self.folder / "crates" / name / path
            file.parent.mkdir(parents=True, exist_ok=True)
            file.write_text(text, encoding="utf-8")

    def compiled(self, name, modules):
        """Compiles the modules of a crate, and says of each that fails why. The compiler shows some errors at a time,
        so what they name is left out, and the others are compiled again."""
        failed, left = {}, dict(modules)
        while left:
            done = run(["rt", "try", "--test", "--steps", "1"], self.lay_out(name, left))
            if done.returncode == 0:
                break
            said = done.stdout + done.stderr
            named = {it.group(1) for it in ERROR.finditer(said)} & set(left)
            if not named and len(left) == 1:
                named = set(left)
            if not named:
                half = len(left) // 2
                for some in (list(left)[:half], list(left)[half:]):
                    failed |= self.compiled(name, {it: left[it] for it in some})
                break
            for module in named:
                errors = [it.group() for it in ERROR.finditer(said) if it.group(1) == module]
                failed[module] = errors or said.splitlines()[-20:]
                del left[module]
        return failed

    def proved(self, name, modules, output):
        """Proves the modules of a crate, and says of each that fails which functions have no proof, or another error.
        What the check prints stands in a file meanwhile."""
        with output.open("w", encoding="utf-8") as file:
            done = subprocess.run(["nice", "-n", "10", "rt", "check", "--jobs", "1"], cwd=self.lay_out(name, modules),
                                  stdout=file, stderr=subprocess.STDOUT, check=False)
        said, failed = output.read_text(encoding="utf-8", errors="replace"), {}
        for it in [*UNPROVED.finditer(said), *ERROR.finditer(said)]:
            module = next((module for module in modules if re.search(rf"\b{module}\b", it.group())), "")
            failed.setdefault(module, []).append(it.group())
        if done.returncode != 0 and not failed:
            failed = {module: said.splitlines()[-20:] for module in modules}
        return failed


def linked(source, target):
    """The same file at another place, or a copy where that lies on another disk."""
    try:
        os.link(source, target)
    except OSError:
        shutil.copy2(source, target)


def run(command, folder):
    """Runs a command where others work too."""
    return subprocess.run(["nice", "-n", "10", *command], cwd=folder, capture_output=True, text=True, check=False,
                          errors="replace")


def kit():
    """The folder of the kit."""
    return Path(run(["rt", "doc"], ".").stdout.strip()).parent


def not_laid_out(files):
    """Those of some files that `rt fmt` would change, or cannot read."""
    wrong, rattle = [], kit() / "bin" / "rattle"
    for file in files:
        done = run([str(rattle), "fmt", str(file)], file.parent)
        if done.returncode != 0 or done.stdout != file.read_text(encoding="utf-8"):
            wrong.append((file, done.stderr.strip().splitlines()[:3]))
    return wrong
