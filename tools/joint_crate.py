"""Lays crates as modules of one crate, so that what they stand on is compiled once for all of them.

The root of NAME becomes the file src/NAME.rt, its other files lie in src/NAME/, and its paths `crate::..` become
`crate::NAME::..`. No line moves, so what is said of a line holds for the crate's own file. A test is named NAME::TEST.
Programs get a `main` that calls the one that the first byte of standard input names: the toolchain's interpreter runs
no program that reads its arguments, and there is no environment.
"""
import os
import re
import string

from repository import read, write

ROOTS = ("src/lib.rt", "src/main.rt")
# How the joint `main` ends after the call of another, by what that returns.
ENDS = {
    "ExitCode": "Ok({})",
    "anyhow::Result<ExitCode>": "{}",
    "anyhow::Result<()>": "{}.map(|_| ExitCode::SUCCESS)",
    "": "{{ {}; Ok(ExitCode::SUCCESS) }}",
}
# A path of modules. Those of specs/ and proofs/, which attributes cite, are read by proofs alone.
IN_CRATE = re.compile(r"\bcrate::(?!(?:specs|proofs)\b)")
MAIN = re.compile(r"^fn main\(rt: HostRuntime\)(?: -> ([^{]*\S))?\s*\{", re.M)
HEAD = """//! Crates that are compiled as one.
#![tactic(auto)]

"""
CHOICE = """
use std::io::Read;
use std::process::ExitCode;

fn main(rt: HostRuntime) -> anyhow::Result<ExitCode> {
    let mut first = [0u8];
    rt.stdin().read(&mut first)?;
    match first[0] {
"""


class JointCrate:
    """Crates of a repository as one: all programs, or all libraries."""

    def __init__(self, repository, names):
        self.known, self.names, self.below = repository.crates, names, repository.below(names)
        self.is_program = self.known[names[0]].is_program
        self.root = "src/main.rt" if self.is_program else "src/lib.rt"

    def lay(self, folder):
        """Writes the sources in a folder that is made."""
        for crate in (self.known[it] for it in self.names):
            for source in crate.code:
                path, text = self.part(source)
                os.makedirs(os.path.dirname(f"{folder}/{path}"), exist_ok=True)
                write(f"{folder}/{path}", text)
        modules = "".join(f"mod {it};\n" for it in self.names)
        write(f"{folder}/{self.root}", HEAD + modules + (self.choice() if self.is_program else ""))

    def part(self, source):
        """The path and the text of a source in the joint crate."""
        name = source.crate.name
        text = IN_CRATE.sub(f"crate::{name}::", source.text)
        if source.file not in ROOTS:
            return f"src/{name}/{source.file.removeprefix('src/')}", text
        # Attributes of a crate may not stand in a module, and its `main` is called from without.
        text = re.sub(r"^#!\[.*", "", text, flags=re.M)
        return f"src/{name}.rt", re.sub(r"^fn main\(", "pub fn main(", text, flags=re.M)

    def choice(self):
        """The text of a `main` that calls the program which the first byte of standard input names."""
        arms = []
        for name in self.names:
            call = self.end(name).format(f"{name}::main(rt)")
            arms.append(f"        b'{self.letter(name)}' => {call},\n")
        return f"{CHOICE}{''.join(arms)}        _ => Ok(ExitCode::FAILURE),\n    }}\n}}\n"

    def letter(self, name):
        """The first byte of standard input by which a program is called."""
        return string.ascii_letters[self.names.index(name)]

    def end(self, name):
        found = MAIN.search(self.known[name].read("src/main.rt"))
        if not found or (found[1] or "") not in ENDS:
            raise ValueError(f"crates/{name}/src/main.rt: its `main` returns what tools/joint_crate.py doesn't know")
        return ENDS[found[1] or ""]

    def libraries(self, kit):
        """The words that name the sources of all that the crates stand on, here and in the toolchain."""
        words, of_kit = [], ["std", *["anyhow"] * self.is_program]
        for it in self.below:
            crate = self.known[it]
            uses = [use for use in crate.uses if use not in self.known]
            of_kit += [use for use in uses if use not in of_kit]
            if it not in self.names:
                own = [use for use in crate.uses if use in self.known]
                words += ["--lib", f"{it}:{','.join(['core', 'std', *uses, *own])}={crate.folder}/src/lib.rt"]
        for it in of_kit:
            uses = re.findall(r"^dep (\w+)$", read(f"{kit}/rlibs/{it}.rlib/format"), re.M)
            of_kit += [use for use in uses if use not in of_kit]
            words += ["--lib", f"{it}:{','.join(uses)}={kit}/rattle/{it}/src/lib.rt"]
        return words

    def own_paths(self, text):
        """A text in which paths of the joint crate, and of sources, are those of the crates themselves."""
        for top in {it.top for it in self.known.values()}:
            text = text.replace(f"{top}/", "")
        for name in self.names:
            text = re.sub(rf"(?<![\w/])src/{name}/(?=[\w/]+\.rt\b)", f"crates/{name}/src/", text)
            text = re.sub(rf"(?<![\w/])src/{name}\.rt\b", f"crates/{name}/{self.known[name].root}", text)
            text = text.replace(f"joint::{name}::", f"{name}::")
        return text
