"""The crates of the repository, and the built libraries over which the edits of one are tried."""
import functools
import os
import re
import shutil

import repository
from repository import read
from rt_syntax import VISIBLE, module_of

PARTS = ("src", "specs", "proofs")


class Crate(repository.Crate):
    """A crate with the crates of this repository below it and the libraries of the toolchain that it uses."""

    def __init__(self, crate, known, over):
        super().__init__(crate.top, crate.name, crate.line, crate.uses, crate.tier)
        self.direct = [known[use] for use in self.uses if use in known]
        self.libraries = ["std", *(use for use in self.uses if use not in known)]
        self.below = []
        for use in self.direct:
            self.below += [it for it in [*use.below, use] if it not in self.below]
        self.over, self.homes = over, None

    def home(self, of_type):
        """The module that declares a type of the crate, or None if no module does, or several do."""
        if self.homes is None:
            self.homes = {}
            for file in self.files("src", ".rt"):
                for name in re.findall(rf"^{VISIBLE}(?:struct|enum|union) (\w+)", self.read(file), re.M):
                    self.homes.setdefault(name, []).append(module_of(file))
        found = self.homes.get(of_type, [])
        return found[0] if len(found) == 1 else None

    def built(self):
        """The crate's built library: in this repository, or in the tree that --over names."""
        return f"{self.over or self.top}/crates/{self.name}/out/rlib/{self.name}.rlib"

    def kept_proofs(self):
        """Where a check of the crate left what it proved, or None."""
        found = [f"{it}/crates/{self.name}/out/incremental" for it in (self.top, self.over) if it]
        return next((it for it in found if os.path.isdir(it)), None)

    def is_built(self):
        """Whether `rt check` or `rt lib` built the library, and no source of it or below has changed since."""
        mark = f"{self.folder}/out/rlib/stamp"
        if not os.path.isdir(self.built()) or not os.path.isfile(mark):
            return False
        made = os.path.getmtime(mark)
        files = (f"{it.folder}/{file}" for it in [self, *self.below] for part in PARTS for file in it.files(part))
        return all(os.path.getmtime(file) < made for file in files)

    def build_over(self, kit, runs, say):
        """Proves and builds the crates below that the tree of --over was not laid with; returns why that failed, or None."""
        for it in self.below:
            folder = f"{self.over}/crates/{it.name}"
            if os.path.isdir(folder):
                continue
            say(f"{self.name}: proves and builds {it.name} in {self.over}")
            shutil.copytree(it.folder, folder, ignore=shutil.ignore_patterns("out", "edits", "must-fail"))
            os.makedirs(os.path.dirname(it.built()))
            output, status = runs.output([f"{kit}/bin/rattle", "build", *it.words(kit), "-o", it.built()], folder)
            if status:
                return f"the library {it.name} isn't proved:\n{output[-2000:]}"
        return None

    @functools.cached_property
    def fault_copy(self):
        """What is wrong with this library in the tree that --over names, or None."""
        if not os.path.exists(f"{self.built()}/format"):
            return f"{self.over} has no built library {self.name}"
        for file in (file for part in PARTS for file in self.files(part)):
            copy = f"{self.over}/crates/{self.name}/{file}"
            if not os.path.isfile(copy) or read(copy) != self.read(file):
                return f"{self.over} was built of other sources: crates/{self.name}/{file} differs"
        return None

    def fault_over(self):
        """What is wrong with the libraries below in the tree that --over names, or None."""
        return next((it.fault_copy for it in self.below if it.fault_copy), None)

    def build_below(self, kit, runs, say):
        """Builds the libraries that the crate stands on, unless they are built; returns why that failed, or None."""
        if self.over:
            return self.build_over(kit, runs, say) or self.fault_over()
        if all(it.is_built() for it in self.below):
            return None
        for it in self.direct:
            say(f"{self.name}: proves and builds {it.name} and the crates below it by `rt lib`, from nothing in up to an hour")
            output, status = runs.output(["rt", "lib"], it.folder)
            if status:
                return f"the library {it.name} isn't proved:\n{output[-2000:]}"
        return None

    def words(self, kit):
        """The words of `rattle check` for this crate, over the libraries as they are built."""
        words = ["--crate-name", self.name, self.root]
        for it in self.libraries:
            words += ["--extern", f"{it}={kit}/rlibs/{it}.rlib"]
        words += ["-L", f"dependency={kit}/rlibs"]
        for it in self.direct:
            words += ["--extern", f"{it.name}={it.built()}"]
        for it in self.below:
            words += ["-L", f"dependency={os.path.dirname(it.built())}"]
        words += ["--antt-project", f"{kit}/rattle/logic/antt-project.json", "--logic-built", f"{kit}/logic_built"]
        return [*words, "--links", f"{self.name}="]


def crates(top, over=None):
    """The crates of a repository by their names, each behind those that it stands on."""
    here, known = repository.Repository(top), {}
    for name in here.below(here.crates):
        known[name] = Crate(here.crates[name], known, over)
    return known
