"""Looks whether the examples are answered as they say, and whether the documents show what is true.

usage: shown.py PROGRAM

Each job NAME.gta of examples/ is run once and must print NAME.gta.stdout. In README.md and docs/:
- a block ```gta below a line that names examples/NAME.gta is that file, and the block ```text behind it is its answer;
- any other block ```gta is run, and the block ```text behind it is what it prints, or its refusal;
- a block ```sh with a block ```text behind it is run by bash in a folder of its own, where `gta` is the program and
  the examples lie in examples/. One that names a tool that isn't here is passed over;
- a link to a file of this repository leads somewhere.
"""

import glob
import os
import re
import shutil
import subprocess
import sys
import tempfile

FENCE = re.compile(r"^```(\w*)\n(.*?)^```$", re.M | re.S)
TOOLS = ("mlr", "python3", "awk")
SECONDS = 120


def words_of(run):
    """What a run says, on the error output where it is refused."""
    return run.stdout if run.returncode == 0 else run.stderr


class Look:
    def __init__(self, program):
        self.program, self.passed, self.failed = os.path.abspath(program), 0, 0

    def tell(self, place, is_right, said=""):
        self.passed, self.failed = self.passed + is_right, self.failed + (not is_right)
        if not is_right:
            print(f"{place}: not so\n{said}")

    def run(self, job):
        words = [self.program, "run"]
        return subprocess.run(words, input=job, capture_output=True, text=True, timeout=SECONDS, check=False)

    def examples(self):
        for file in sorted(glob.glob("examples/*.gta")):
            with open(file, encoding="utf-8") as job, open(f"{file}.stdout", encoding="utf-8") as answer:
                said = words_of(self.run(job.read()))
                self.tell(file, said == answer.read(), said)

    def shell(self, place, script, answer):
        """Runs the lines of a script in a folder of its own."""
        if any(re.search(rf"\b{tool}\b", script) and not shutil.which(tool) for tool in TOOLS):
            print(f"{place}: passed over, since a tool is not here")
            return
        with tempfile.TemporaryDirectory() as room:
            os.makedirs(f"{room}/bin")
            os.symlink(self.program, f"{room}/bin/gta")
            shutil.copytree("examples", f"{room}/examples")
            path = {"PATH": f"{room}/bin:{os.environ['PATH']}"}
            how = {"cwd": room, "env": {**os.environ, **path}, "stdout": subprocess.PIPE, "stderr": subprocess.STDOUT}
            said = subprocess.run(["bash", "-c", script], text=True, timeout=SECONDS, check=False, **how).stdout
        self.tell(place, said == answer, said)

    def blocks(self, file, text):
        found = list(FENCE.finditer(text))
        for block, answer in zip(found, found[1:] + [None]):
            place = f"{file}:{text.count(chr(10), 0, block.start()) + 1}"
            kind, shown = block[1], answer[2] if answer and answer[1] == "text" else None
            above = text[: block.start()].rstrip("\n").rsplit("\n", 1)[-1]
            name = re.search(r"examples/\w+\.gta", above)
            if kind == "gta" and name and shown is not None:
                with open(name[0], encoding="utf-8") as job, open(f"{name[0]}.stdout", encoding="utf-8") as stdout:
                    self.tell(place, (job.read(), stdout.read()) == (block[2], shown), f"it isn't {name[0]}")
            elif kind == "gta" and shown is not None:
                said = words_of(self.run(block[2]))
                self.tell(place, said == shown, said)
            elif kind == "sh" and shown is not None:
                self.shell(place, block[2], shown)

    def links(self, file, text):
        for link in re.findall(r"\]\(([^)\s]+)\)", FENCE.sub("", text)):
            path, _, heading = link.partition("#")
            to = os.path.normpath(os.path.join(os.path.dirname(file), path)) if path else file
            is_right = "://" in link or os.path.exists(to)
            if is_right and heading and to.endswith(".md"):
                with open(to, encoding="utf-8") as page:
                    heads = re.findall(r"^#+ (.*)$", FENCE.sub("", page.read()), re.M)
                is_right = heading in [re.sub(r"[^\w\- ]", "", it.lower()).replace(" ", "-") for it in heads]
            self.tell(f"{file}: the link {link}", is_right)


def main(program):
    look = Look(program)
    look.examples()
    for file in ["README.md", *sorted(glob.glob("docs/*.md"))]:
        with open(file, encoding="utf-8") as page:
            text = page.read()
        look.blocks(file, text)
        look.links(file, text)
    print(f"examples and documents: {look.passed} passed, {look.failed} failed")
    return 1 if look.failed else 0


sys.exit(main(sys.argv[1]))
