"""Tests bin/package: two calls give the same bytes, the archive has what it says, and works in another folder, as `nobody` and with
an empty environment."""
import os, pathlib, shutil, subprocess

from run import EXAMPLE, TOP, Case, Ran, program, run

NAME = f"itch_bars-{(TOP / 'bin/version').read_text().split()[1]}-x86_64-linux"
DOC = "share/doc/itch_bars"
FILES = "docs/AUDIT.md docs/FORMATS.md docs/GUIDE.md docs/candles.png data/example.itch data/whole_day.itch built_from SHA256SUMS".split()


class Package(Case):
    def packed(self, name, mask=0o22):
        """The folder in which a call leaves its files. The program is a copy, since its record may be missing."""
        for it in ("out", name):
            (self.folder / it).mkdir(exist_ok=True)
        copy, record = self.folder / "out/itch_bars", pathlib.Path(program()).with_name("built_from")
        shutil.copy(program(), copy)
        copy.chmod(0o777 & ~mask)
        copy.with_name("built_from").write_bytes(record.read_bytes() if record.exists() else b"program\n")
        self.gives(run(TOP / "bin/package", self.folder / name, env={"ITCH_BARS": str(copy)}, umask=mask))
        return self.folder / name

    def test_same_bytes(self):
        one, other = ({it.name: it.read_bytes() for it in self.packed(f"{mask}", mask).iterdir()} for mask in (0o22, 0o77))
        self.assertTrue(one == other and f"{NAME}.tar.gz.sha256" in one)
        self.gives(run("sh", "-c", "sha256sum --quiet -c *.sha256", cwd=self.folder / "18"))

    def test_archive(self):
        tree, who = self.folder / NAME, {"user": 65534, "group": 65534, "extra_groups": []} if os.geteuid() == 0 else {}
        self.gives(run("tar", "-xzf", self.packed("one") / f"{NAME}.tar.gz", "-C", self.folder))
        held = {str(it.relative_to(tree)) for it in tree.rglob("*") if it.is_file()}
        wanted = {f"{DOC}/{it}" for it in [*FILES, *(str(it.relative_to(TOP)) for it in TOP.glob("recipes/*.*"))]}
        self.assertEqual(held, wanted | {"bin/itch_bars", "libexec/itch_bars", "bin/trace_sales", "share/man/man1/itch_bars.1"})
        self.assertIn(f'\nexport GLIBC_TUNABLES="${{GLIBC_TUNABLES-{(TOP / "bin/tunables").read_text()[:-1]}}}"\n', (tree / "bin/itch_bars").read_text())
        self.gives(run("sha256sum", "--quiet", "-c", f"{DOC}/SHA256SUMS", cwd=tree))
        self.assertEqual(len((tree / DOC / "SHA256SUMS").read_text().splitlines()), len(held) - 1)
        self.folder.chmod(0o755)
        for command, words in ((program(), ["bars 5 m"]), (TOP / "bin/trace_sales", ["MSFT", "09:40:00", "09:45:00"])):
            typed = [f"{tree}/bin/{pathlib.Path(command).name}", "data/example.itch", *words]
            ran = subprocess.run(typed, cwd=tree / DOC, env={}, capture_output=True, stdin=subprocess.DEVNULL, timeout=60, **who)
            self.gives(Ran(ran.returncode, ran.stdout, ran.stderr), 0, run(command, EXAMPLE, *words).out)
        if not shutil.which("dpkg-deb"):
            self.skipTest("there is no dpkg-deb")
        self.gives(run("dpkg-deb", "-x", self.folder / "one" / f"{NAME}.deb", self.folder / "deb"))
        self.gives(run("diff", "-r", tree, self.folder / "deb/usr"))

    def test_refusals(self):
        self.assertEqual(run(TOP / "bin/package", self.folder / "none").status, 2)
        other = b"bin/package: the program is of another version than bin/version\n"
        self.gives(run(TOP / "bin/package", self.folder, env={"ITCH_BARS": "/bin/true"}), 70, errors=other)
