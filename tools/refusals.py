"""Tries wrong definitions of a crate on the proof of one that stands on it."""
import os
import re
import shutil
import subprocess
import tempfile
from concurrent.futures import ThreadPoolExecutor

from edits import changes_of, edited


class Trial:
    """Edits of one crate's definitions, and the crate, with those between, whose proof has to refuse each."""

    def __init__(self, crates, changed, proof, worked=()):
        """`worked` names modules of worked examples in the changed crate, which are left out: they would refuse it
        first."""
        self.crates, self.changed, self.proof, self.worked = crates, changed, proof, worked

    def check(self, room):
        """Returns what `rt check` says of the proof, and whether it is proved."""
        ran = subprocess.run(["rt", "check"], cwd=f"{room}/crates/{self.proof}", stdin=subprocess.DEVNULL,
                             stdout=subprocess.PIPE, stderr=subprocess.STDOUT, text=True, errors="replace")
        return ran.stdout, ran.returncode == 0

    def make_room(self, room):
        """Copies the crates, without the worked examples."""
        os.makedirs(f"{room}/crates")
        shutil.copy("HANDLES", room)
        for crate in self.crates:
            left_out = [f"{name}.antt" for name in self.worked] if crate == self.changed else []
            shutil.copytree(f"crates/{crate}", f"{room}/crates/{crate}",
                            ignore=shutil.ignore_patterns("out", "must-fail", *left_out))
        with open("crates.txt", encoding="utf-8") as file:
            lines = [line for line in file if line.split(":")[0] in self.crates]
        with open(f"{room}/crates.txt", "w", encoding="utf-8") as file:
            file.writelines(lines)
        self.forget(f"{room}/crates/{self.changed}/proofs/Lib.antt")

    def forget(self, lib):
        """Leaves the worked examples out of the list of modules."""
        with open(lib, encoding="utf-8") as file:
            modules = [line for line in file if line.split()[:1] != ["mod"] or line.split()[1] not in self.worked]
        with open(lib, "w", encoding="utf-8") as file:
            file.writelines(modules)

    def try_edit(self, room, path):
        """Returns whether the proof refuses the edit of this file, and what to say."""
        name = os.path.splitext(os.path.basename(path))[0]
        (changed, pairs), = changes_of(path)
        file = f"{room}/crates/{self.changed}/{changed}"
        with open(file, encoding="utf-8") as it:
            text = it.read()
        wrong, fault = edited(text, pairs)
        if fault:
            return False, f"{name}: {fault} in {changed}"
        with open(file, "w", encoding="utf-8") as it:
            it.write(wrong)
        said, proved = self.check(room)
        with open(file, "w", encoding="utf-8") as it:
            it.write(text)
        first = re.search(r"(?m)^\S*proofs/\S+: error: .*", said)
        if proved or not first or re.search(r"(?m)^\S*specs/\S+: error", said):
            return False, f"{name}: NOT REFUSED by the proof of {self.proof}:\n{said[-600:]}"
        return True, f"{name}: refused: {first[0][:140]}"

    def run(self, paths):
        """Tries the edits of these files side by side; returns whether each is refused, and what to say of each."""
        count = min(4, os.cpu_count() or 1, len(paths))
        with tempfile.TemporaryDirectory(prefix="fixd-wrong-") as top:
            self.make_room(f"{top}/0")
            said, proved = self.check(f"{top}/0")
            if not proved:
                return False, f"{self.proof} isn't proved without any edit:\n{said[-2000:]}"
            for n in range(1, count):
                shutil.copytree(f"{top}/0", f"{top}/{n}")
            with ThreadPoolExecutor(count) as pool:
                shares = pool.map(lambda n: [self.try_edit(f"{top}/{n}", path) for path in paths[n::count]],
                                  range(count))
                tried = [one for share in shares for one in share]
        return all(refused for refused, _ in tried), "\n".join(text for _, text in tried)
