"""The crate as cargo packages it, and as cargo vendors it from a git repository: which files it has, and that it builds
from these alone. Everything is built in a temporary folder. No network is used."""
import os
import re
import shutil
import subprocess
import tempfile
import unittest
from pathlib import Path

CRATE = Path(__file__).resolve().parents[1]
TOP = CRATE.parents[1]
LIBRARIES = [f"{it}/libliteral_search.a" for it in ("aarch64-linux-gnu", "x86_64-linux-gnu", "x86_64-windows")]
# The files that the package has besides its sources, tests and examples: copies of files of the repository, and others.
COPIES = {"LICENSE-MIT": "LICENSE-MIT", "UNLICENSE": "UNLICENSE", **{f"lib/{it}": f"dist/{it}" for it in LIBRARIES}}
OTHERS = {"CHANGELOG.md", "Cargo.lock", "Cargo.toml", "README.md", "build.rs"}
# What cargo adds, to a package or where it vendors.
ADDED = {".cargo_vcs_info.json", ".cargo-checksum.json", "Cargo.toml.orig"}
# How the names of settings begin that would change what cargo and git do here.
CHANGING = ("CARGO_", "DOCS_RS", "GIT_", "LD_PRELOAD", "LITERAL_SEARCH_LIB", "RUSTFLAGS")

MANIFEST = """[package]
name = "client"
version = "0.0.0"
edition = "2021"

[workspace]
"""
FETCHED = """
[dependencies]
aho-corasick = {{ git = "{}" }}
"""
PATCHED = """
[dependencies]
aho-corasick = "1.1"

[patch.crates-io]
aho-corasick = {{ git = "{}" }}
"""
BOTH = """
[dependencies]
one = {{ package = "aho-corasick", path = "{}" }}
other = {{ package = "aho-corasick", path = "{}" }}
"""
PROGRAM = """fn main() {
    let searcher = aho_corasick::AhoCorasick::new(["b"]).unwrap();
    assert_eq!(searcher.find("ab").map(|it| it.range()), Some(1..2));
}
"""


class InRoom(unittest.TestCase):
    """Tests in a folder of their own, which is cargo's home too."""

    @classmethod
    def setUpClass(cls):
        room = tempfile.TemporaryDirectory(prefix="package-")
        cls.addClassCleanup(room.cleanup)
        cls.room = Path(room.name).resolve()

    @classmethod
    def run_in(cls, folder, *words, **settings):
        """What a command prints, which must not fail."""
        given = {name: value for name, value in os.environ.items() if not name.startswith(CHANGING)}
        given |= {"CARGO_HOME": f"{cls.room}/home", "CARGO_TARGET_DIR": f"{cls.room}/target", "CARGO_INCREMENTAL": "0",
                  "CARGO_PROFILE_DEV_DEBUG": "0", "GIT_CONFIG_GLOBAL": os.devnull, "GIT_CONFIG_NOSYSTEM": "1",
                  **settings}
        ran = subprocess.run(words, cwd=folder, env=given, capture_output=True, text=True)
        if ran.returncode:
            raise AssertionError(f"{' '.join(map(str, words))}: {ran.stdout}{ran.stderr}")
        return ran.stdout

    @classmethod
    def cargo(cls, folder, *words, **settings):
        return cls.run_in(folder, os.environ.get("CARGO", "cargo"), *words, **settings)

    def check_files(self, folder):
        """Checks that a folder has the files of the package, and no others."""
        sources = [it for part in ("examples", "src", "tests") for it in (CRATE / part).glob("*.rs")]
        found = {str(it.relative_to(folder)) for it in folder.rglob("*") if it.is_file()}
        self.assertEqual(found - ADDED, {str(it.relative_to(CRATE)) for it in sources} | OTHERS | {*COPIES})

    def check_copies(self, folder):
        """Checks that copies of files of the repository are the same as these."""
        for file, original in COPIES.items():
            self.assertTrue((folder / file).read_bytes() == (TOP / original).read_bytes(), file)


class Packaged(InRoom):
    @classmethod
    def setUpClass(cls):
        """(cargo also builds the package from the archive, as it does before it publishes one)"""
        super().setUpClass()
        cls.cargo(CRATE, "package", "-q", "--offline", "--allow-dirty")
        archive = next((cls.room / "target/package").glob("*.crate"))
        cls.run_in(cls.room, "tar", "xf", archive)
        cls.crate = cls.room / archive.stem

    def test_files(self):
        self.check_files(self.crate)

    def test_copies(self):
        self.check_copies(self.crate)

    def test_it_builds_alone(self):
        self.cargo(self.crate, "test", "-q", "--offline", "--lib", "--test", "api")

    def test_two_versions_in_one_program_are_refused(self):
        """Otherwise one of them would call the library of the other."""
        other, client = self.room / "other", self.room / "both"
        shutil.copytree(self.crate, other, ignore=shutil.ignore_patterns("target"))
        manifest = (other / "Cargo.toml").read_text("utf-8")
        (other / "Cargo.toml").write_text(re.sub(r'(?m)^version = ".*"$', 'version = "2.0.0"', manifest), "utf-8")
        (client / "src").mkdir(parents=True)
        (client / "src/main.rs").write_text("fn main() {}\n", "ascii")
        (client / "Cargo.toml").write_text(MANIFEST + BOTH.format(self.crate, other), "ascii")
        with self.assertRaisesRegex(AssertionError, "links to (the )?native library `literal_search`|`links`"):
            self.cargo(client, "check", "-q", "--offline")

    def test_documentation_is_built_without_the_library(self):
        """As docs.rs builds it, where each warning is an error here."""
        shutil.copytree(self.crate, self.room / "documented", ignore=shutil.ignore_patterns("lib", "target"))
        target = self.room / "target-of-documentation"
        settings = {"DOCS_RS": "1", "RUSTDOCFLAGS": "-D warnings", "CARGO_TARGET_DIR": str(target)}
        self.cargo(self.room / "documented", "doc", "-q", "--offline", "--no-deps", **settings)
        self.assertTrue((target / "doc/aho_corasick/struct.AhoCorasick.html").is_file())

    def test_manifest(self):
        """What crates.io asks of a manifest, and the oldest compiler, for which bindings/test tests the crate."""
        manifest = (self.crate / "Cargo.toml").read_text("utf-8")
        for wanted in ("description = ", 'license = "Unlicense OR MIT"', 'readme = "README.md"', "keywords = ",
                       "categories = ", 'rust-version = "1.63"', 'links = "literal_search'):
            self.assertIn(wanted, manifest)


@unittest.skipUnless(shutil.which("git"), "there is no git")
class Vendored(InRoom):
    @classmethod
    def setUpClass(cls):
        """Vendors the crate for a program, in the original's place, from a repository that is gone afterwards."""
        super().setUpClass()
        repository, cls.client = cls.room / "repository", cls.room / "client"
        leave_out = shutil.ignore_patterns("target", "__pycache__")
        shutil.copytree(CRATE, repository / "bindings/rust", ignore=leave_out)
        shutil.copy(CRATE.parent / ".gitignore", repository / "bindings")
        cls.run_in(repository, "git", "init", "-q")
        cls.run_in(repository, "git", "add", "--all")
        cls.run_in(repository, "git", "-c", "user.name=it", "-c", "user.email=it", "commit", "-q", "-m", "All")
        (cls.client / "src").mkdir(parents=True)
        (cls.client / "src/main.rs").write_text(PROGRAM, "ascii")
        # (cargo fetches only without --offline, and would ask for the index of crates.io to patch it)
        (cls.client / "Cargo.toml").write_text(MANIFEST + FETCHED.format(repository.as_uri()), "ascii")
        cls.cargo(cls.client, "fetch", "-q")
        (cls.client / "Cargo.toml").write_text(MANIFEST + PATCHED.format(repository.as_uri()), "ascii")
        (cls.client / "Cargo.lock").unlink()
        (cls.client / ".cargo").mkdir()
        (cls.client / ".cargo/config.toml").write_text(cls.cargo(cls.client, "vendor", "--offline"), "ascii")
        shutil.rmtree(repository)
        shutil.rmtree(cls.room / "home")

    def test_files(self):
        self.check_files(self.client / "vendor/aho-corasick")
        self.check_copies(self.client / "vendor/aho-corasick")

    def test_it_builds_alone(self):
        self.cargo(self.client, "run", "-q", "--offline")


if __name__ == "__main__":
    unittest.main()
