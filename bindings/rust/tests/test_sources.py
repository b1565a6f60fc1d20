"""The sources of the crate: what build.rs tells cargo, and that each public item has an example. Nothing else of the
repository is needed, so that these tests also run on a copy of the crate."""
import os
import re
import shutil
import subprocess
import tempfile
import unittest
from pathlib import Path

CRATE = Path(__file__).resolve().parents[1]
TARGET = {"TARGET": "x86_64-unknown-linux-gnu", "CARGO_CFG_TARGET_ARCH": "x86_64", "CARGO_CFG_TARGET_OS": "linux",
          "CARGO_CFG_TARGET_POINTER_WIDTH": "64", "CARGO_CFG_TARGET_ENV": "gnu", "CARGO_CFG_TARGET_ENDIAN": "little"}

# Where bindings/test runs this, a library that refuses a request for memory stands before the C library.
PLAIN = {name: value for name, value in os.environ.items() if name != "LD_PRELOAD"}


def items(text):
    """The public items of a module, and the calls of its public traits: each name, and its documentation."""
    documentation, in_trait = [], False
    for line in text.split("\n"):
        if re.match(r' *(///|#\[|"|\)\]|\$\(#)', line):
            documentation.append(line)
            continue
        found = re.match(r" *(pub )?(?:const )?(?:fn|struct|enum|trait|const) (\$?\w+)", line)
        if found and (found[1] or in_trait):
            yield found[2], "\n".join(documentation)
        in_trait = line.startswith("pub trait ") or in_trait and line != "}"
        documentation = []


class Documentation(unittest.TestCase):
    # The modules with items that users see.
    MODULES = "automaton builder error folding iterators numbers occurrences packed prefilter replacing search searcher"

    def test_each_public_item_has_an_example(self):
        of_modules = [(CRATE / f"src/{it}.rs").read_text("utf-8") for it in f"{self.MODULES} settings stream".split()]
        # (these two are public only because public traits use them, and nobody can name them)
        found = [it for text in of_modules for it in items(text) if it[0] not in ("Sealed", "Cause")]
        # (those of a macro may be in its argument)
        is_shown = [it.count("```") > 1 or "$(#" in it for _, it in found]
        self.assertEqual([name for (name, _), is_shown in zip(found, is_shown) if not is_shown], [])
        self.assertGreater(len(found), 180)


class Build(unittest.TestCase):
    """What build.rs tells cargo."""

    @classmethod
    def setUpClass(cls):
        room = tempfile.TemporaryDirectory(prefix="build-")
        cls.addClassCleanup(room.cleanup)
        cls.script = f"{room.name}/build"
        compiler = os.environ.get("RUSTC") or shutil.which("rustc") or "/usr/bin/rustc"
        given = {**PLAIN, "CARGO_MANIFEST_DIR": str(CRATE)}
        subprocess.run([compiler, "--edition", "2021", CRATE / "build.rs", "-o", cls.script], env=given, check=True)

    def told(self, **given):
        plain = {name: value for name, value in PLAIN.items() if name not in ("DOCS_RS", "LITERAL_SEARCH_LIB")}
        how = {"capture_output": True, "text": True, "env": {**plain, **TARGET, **given}}
        ran = subprocess.run([self.script], **how)
        links = re.findall("^cargo:rustc-link.*", ran.stdout, re.M)
        return ran.returncode, ran.stdout.split("\n")[:-1] if ran.returncode else links, ran.stderr

    def test_which_library(self):
        own = CRATE / "lib"
        other = own / "aarch64-linux-gnu"
        for given, folder in (({}, own / "x86_64-linux-gnu"), ({"LITERAL_SEARCH_LIB": str(other)}, other),
                              ({"CARGO_CFG_TARGET_ENV": "musl"}, own / "x86_64-linux-gnu"),
                              ({"CARGO_CFG_TARGET_ARCH": "aarch64"}, own / "aarch64-linux-gnu"),
                              ({"CARGO_CFG_TARGET_OS": "windows"}, own / "x86_64-windows")):
            links = [f"cargo:rustc-link-search=native={folder}", "cargo:rustc-link-lib=static=literal_search"]
            self.assertEqual(self.told(**given), (0, links, ""))
        status, links, why = self.told(LITERAL_SEARCH_LIB="/none")
        self.assertEqual((status, links), (1, []))
        wanted = "/none/libliteral_search.a does not exist; set LITERAL_SEARCH_LIB to the folder of libliteral_search.a"
        self.assertEqual(why, f"aho-corasick (literal-search): {wanted}\n")

    def test_documentation_links_nothing(self):
        self.assertEqual(self.told(DOCS_RS="1", LITERAL_SEARCH_LIB="/none", CARGO_CFG_TARGET_OS="macos"), (0, [], ""))

    def test_other_targets(self):
        """The error is one sentence, and all that the script says."""
        with_glibc = "x86_64-unknown-linux-gnu and aarch64-unknown-linux-gnu with glibc 2.34 or newer"
        offered = f"{with_glibc}, x86_64-unknown-linux-musl, and x86_64-pc-windows-gnu"
        said = f"this crate has no library for the target other, but only for {offered}."
        why = f"aho-corasick (literal-search): {said}\n"
        others = ({"ARCH": "riscv64"}, {"POINTER_WIDTH": "32"}, {"OS": "macos"}, {"ENV": ""}, {"ENDIAN": "big"},
                  {"ARCH": "aarch64", "ENV": "musl"}, {"ARCH": "wasm32", "POINTER_WIDTH": "32"},
                  {"OS": "windows", "ENV": "msvc"}, {"OS": "windows", "ABI": "llvm"},
                  {"OS": "windows", "ARCH": "aarch64"}, {"OS": "windows", "POINTER_WIDTH": "32"})
        for other in others:
            given = {f"CARGO_CFG_TARGET_{part}": value for part, value in other.items()}
            self.assertEqual(self.told(**given, TARGET="other"), (1, [], why))


if __name__ == "__main__":
    unittest.main()
