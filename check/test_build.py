"""Tests bin/build over a made-up repository, with a stand-in for `rt`."""
import os, shutil, signal, time

from run import comes
from stand_in import CRATES, LINES, NEEDED, OTHERS, Tree, is_there

MARK, WAITS = "not yet proved: ", "itch_bars: another call is building the program; this one waits for it\n"
# What becomes of files, a text, None if it is gone or a function of what it was, and why the program is outdated by it, if it is.
CHANGED, ANOTHER, NONE = "the sources have changed", "the program isn't the one that was built here", "there is no program yet"
CHANGES = [*((CHANGED, {name: text + " "}) for name, text in NEEDED.items()), *(("", {name: "another"}) for name in OTHERS)]
CHANGES += [(CHANGED, it) for it in (
    {"crates/middle/specs/New.antt": ""}, {"crates/low/src/more/new.rt": ""},
    {"crates/low/src/lib.rt": "lo", "crates/low/src/out/deep.rt": "wdeep"},
    {"crates/low/specs/Low.antt": None, "crates/low/specs/High.antt": NEEDED["crates/low/specs/Low.antt"]})]
CHANGES += [(told, {"crates.txt": CRATES.replace(old, new)}) for told, old, new in (
    (CHANGED, "middle clap", "middle"), (CHANGED, "Threads+Wait", "Threads"), (CHANGED, "low:\n", "low: itoa\n"),
    ("", "beside: low", "beside: middle"), ("", "a comment", "another"), ("", "\n\n", "\n"))]
CHANGES += [(told, {f"crates/itch_bars/out/{name}": becomes}) for told, name, becomes in (
    (ANOTHER, "itch_bars", lambda it: it + "\n"), (NONE, "itch_bars", None), (ANOTHER, "built_from", ""), (NONE, "built_from", "\udcff"),
    (CHANGED, "built_from", lambda it: it.replace("sources ", "sources 0")), (ANOTHER, "built_from", lambda it: it.split("program")[0]))]
CHANGES += [("another kit has built the program (kit-1 logic abc)", {"../kit/KIT-ID": "kit-2 logic abc\n"})]


class Builds(Tree):
    def test_the_first_call_builds_and_later_ones_do_not(self):
        # By a link, beside files that look like Python's own.
        (self.here / "one").symlink_to("../top/bin/itch_bars")
        beside = [self.file(f"{name}.py", b"raise SystemExit(9)\n") for name in ("here/hashlib", "here/sitecustomize", "top/bin/subprocess")]
        status, out, errors = self.ends(self.start("./one", self.day, "sales", PYTHONPATH=str(self.here)))
        beside[-1].unlink()
        self.assertEqual((status, out), (0, self.answer()), errors)
        self.tells(errors, "there is no program yet, so it is proved and built first, which takes", "3 of 3 crates proved, 0 min 0")
        copy = self.stand_in / "copy"
        found = {str(it.relative_to(copy)): it.read_text() for it in copy.rglob("*") if it.is_file()}
        self.assertEqual((found, (copy / ".git").is_dir()), ({**NEEDED, "crates.txt": LINES}, True))
        self.assertTrue(all(int(it) & 1 for it in self.noted("modes").split()), "nobody can't reach the room")
        self.leaves_nothing()
        self.assertEqual(self.ends(self.script("-", "sales", input=b"another day\n")), (0, self.answer(day="another day\n"), ""))
        self.assertEqual((self.ends(self.build()), self.builds()), ((0, "", ""), 1))

    def test_what_an_earlier_run_proved_is_kept(self):
        for name in ("low", "itch_bars"):
            self.asks(f"keeps_{name}")
        status, out, errors = self.ends(self.script("day", "sales"))
        self.assertEqual((status, out), (0, self.answer()), errors)
        self.tells(errors, "3 of 3 crates proved")

    def test_words_streams_and_signals_reach_the_program(self):
        words = ["sales", "", "-x", "--run", "a  'b' \"c\"", "*", "$HOME", "two\nlines", b"\xff"]
        shown = [it if isinstance(it, str) else os.fsdecode(it) for it in words]
        long = b"a line\n" * 40_000
        ran = [self.ends(self.build("--run", "-", *words, input=long)) for _ in range(2)]
        self.assertEqual([it[:2] for it in ran], [(0, self.answer(shown, long.decode()))] * 2)
        self.assertEqual((ran[1][2], self.noted("ci_input")), ("", ""))
        for changes in ({}, {"crates/low/src/lib.rt": "new"}):
            self.files(changes)
            running = self.script("-", "shows")
            status, out, _ = self.ends(running)
            self.assertEqual((status, *out.split()[3:5]), (0, str(running.pid), (self.top / "bin/tunables").read_text().strip()))
            self.assertEqual(int(out.split()[-1], 16) & 0x1001000, 0, "it ignores signals that Python does")
        for call, *words in ((self.build, "--run"), (self.script,)):  # (the latter by the quick look)
            self.assertEqual(self.ends(call(*words, "-", "shows", GLIBC_TUNABLES="mine"))[1].split()[4], "mine")
        self.assertEqual(self.ends(self.script("day", "fault"))[::2], (1, "fault: as asked\n"))

    def test_what_stops_a_build_is_named_at_once(self):
        self.is_refused(self.script("day", "sales", PATH=self.tools), "there is no program yet, and there is no `rt`", "README.md")
        self.file("kit/KIT-ID", b"kit-9 logic 000\n")
        self.is_refused(self.script("day", "sales"), "(kit-9 logic 000) can't build it", "in logic abc")
        self.file("kit/KIT-ID", b"kit-1 logic abc\n")
        self.files({"bin/build": lambda it: it.replace("= 3 << 20,", "= 3 << 60,")})
        self.is_refused(self.script("day", "sales"), f"3 GB below {self.temporary},", "TMPDIR")
        for words in (["--sums"], ["--sum", "x"], ["--accept"], ["--check", "x"], ["day", "sales"]):
            self.is_refused(self.build(*words), "doesn't know these words")
        self.files({"crates.txt": "low:\n"})
        self.is_refused(self.build(), "could not be built: 'itch_bars'")
        self.assertEqual(self.builds(), 0)

    def test_a_run_of_rt_that_is_not_whole_and_well(self):
        for it in ("fails_late", "lacks_middle", "builds_none", "refuses_low"):
            self.asks(it)
            self.is_refused(self.script("-", "sales"), "could not be built")
            self.assertFalse(self.program.exists() or self.record.exists())
            self.lets(it)
        running, processes = self.held("start")
        os.kill(processes[0], signal.SIGKILL)
        self.is_refused(running, "could not be built, since `rt ci` has ended with status -9")

    def test_a_refused_crate_ends_it_and_the_program_of_before_stays(self):
        self.assertEqual(self.ends(self.build())[0], 0)
        before = self.program.read_bytes(), self.record.read_bytes()
        self.files({"crates/low/src/lib.rt": "wrong"})
        self.asks("refuses_low", "hold_refusal", "hold_try")
        log = self.program.with_name("build.log")
        self.is_refused(self.script(self.day, "sales"), "rt: low NOT PROVED", f"`rt ci` refuses a crate; the whole log is {log}")
        self.assertFalse(any(is_there(it) for it in [*self.comes_to("refusal"), *self.comes_to("try")]))
        self.assertEqual((self.program.read_bytes(), self.record.read_bytes()), before)

    def test_sums_are_accepted(self):
        before = self.ends(self.build("--sum"))[1].strip()
        self.is_refused(self.build("--accept", before), "No such file")
        self.file("top/crates/itch_bars/out/itch_bars", b"#!/bin/sh\necho built elsewhere\n").chmod(0o755)
        self.is_refused(self.build("--accept", before[:-1]), "another sum")
        self.is_refused(self.build("--accept", before, PATH=self.tools), "there is no `rt`")
        self.assertEqual(self.ends(self.build("--check")), (1, "", ""))
        self.assertEqual(self.ends(self.build("--accept", before)), (0, "", ""))
        self.assertEqual(self.ends(self.script("day", "sales")), (0, "built elsewhere\n", ""))

    def test_one_builds_at_a_time(self):
        first, _ = self.held("start")
        others = [self.script("day", "bars 5 m") for _ in range(3)]
        comes(lambda: all(it.err.read_text() == WAITS for it in others), "the others say that they wait")
        for it in (others.pop(), first):
            it.terminate()
            self.assertEqual(self.ends(it)[0], -signal.SIGTERM)
        comes(lambda: self.builds() == 2, "one that has waited builds, since the first one hasn't")
        self.lets("hold_start")
        ended = [self.ends(it) for it in others]
        self.assertEqual([it[:2] for it in ended], [(0, self.answer(["bars 5 m"]))] * 2)
        self.assertEqual((WAITS in [it[2] for it in ended], self.builds()), (True, 2))

    def test_a_signal_ends_all_and_leaves_nothing(self):
        for number in (signal.SIGTERM, signal.SIGINT, signal.SIGHUP):
            running, processes = self.held("start", "try", file="day")
            running.send_signal(number)
            status, out, errors = self.ends(running)
            self.assertEqual((status, out, errors.splitlines()[-1]), (-number, "", "itch_bars: stopping"))
            self.assertFalse(self.program.exists() or self.record.exists() or any(is_there(it) for it in processes))
            self.leaves_nothing()

    def test_a_killed_call_leaves_a_folder_that_the_next_one_takes_away(self):
        running, processes = self.held("start", "try", file="day")
        running.kill()
        self.ends(running)
        comes(lambda: not any(is_there(it) for it in processes[::2]), "rt ends with the call")
        for it in processes[1::2]:
            os.kill(it, signal.SIGKILL)  # (which the kit's `rt` does itself)
        self.lets("hold_start", "hold_try")
        shutil.copytree(self.top, self.folder / "other", ignore=shutil.ignore_patterns("out"))
        self.assertEqual(self.ends(self.start(self.folder / "other/bin/build"))[0], 0)
        self.assertEqual(len(list(self.temporary.iterdir())), 1)  # (that of another repository may be in use)
        self.assertEqual(self.ends(self.script(self.day, "sales"))[:2], (0, self.answer()))
        self.leaves_nothing()

    def test_a_build_under_nohup_and_an_edit_meanwhile(self):
        running, _ = self.held("start", shell='trap "" HUP; exec "$@"')
        running.send_signal(signal.SIGHUP)
        self.files({"crates/low/src/lib.rt": "new"})
        time.sleep(0.3)
        self.lets("hold_start")
        self.assertEqual(self.ends(running)[:2], (0, self.answer()))
        self.assertEqual(self.ends(self.script(self.day, "sales"))[:2], (0, self.answer(built="newmain")))


class UpToDate(Tree):
    def setUp(self):
        super().setUp()
        self.assertEqual(self.ends(self.build())[0], 0)
        self.settle()

    def settle(self):
        """Has all sums taken, so that the quick look sees nothing changed."""
        time.sleep(0.1)
        self.assertEqual(self.ends(self.build("--check")), (0, "", ""))

    def is_seen(self, told, what):
        """Both looks see it, and say why: that of bin/build, and first the quick one, which runs no program that isn't up to date."""
        before = self.builds()
        self.asks("refuses_low")
        status, _, errors = self.ends(self.script("day", "sales"))
        self.lets("refuses_low")
        self.assertEqual((what, status, self.builds() - before), (what, 70, 1) if told else (what, 0, 0))
        self.tells(errors, told)
        self.assertEqual((what, *self.ends(self.build("--check"))), (what, int(told != ""), "", ""))

    def test_each_change(self):
        for told, changes in CHANGES:
            before = {name: (self.top / name).read_text() if (self.top / name).exists() else None for name in changes}
            self.files(changes)
            self.is_seen(told, changes)
            self.files(before)
            self.program.chmod(0o755)
            self.settle()

    def test_times_modes_and_no_kit(self):
        """Sums decide, and no time that can be set hides a change. If nothing has changed, they aren't taken."""
        source, path = self.top / "crates/low/src/lib.rt", self.path
        was = source.stat()
        source.write_text("LOW")
        os.utime(source, ns=(was.st_atime_ns, was.st_mtime_ns))
        self.is_seen(CHANGED, "an edit of the same length and time")
        source.write_text("low")
        for it in (source, self.program):
            os.utime(it, (1, 1))
            self.is_seen("", "a touched file")
        for mode, told in ((0o644, ANOTHER), (0o755, "")):
            self.program.chmod(mode)
            self.is_seen(told, f"a program of mode {mode:o}")
        os.utime(source, (1, 1))
        self.path = self.tools
        self.is_seen("", "no kit, which could build no other program")
        self.path = path
        self.settle()
        (self.tools / "python3").unlink()
        self.assertEqual(self.ends(self.script("day", "sales")), (0, self.answer(), ""))


class Tries(Tree):
    def shown(self, *words):
        """What is shown of a call, until all is tried. Then the call ends: its status and errors are kept."""
        self.asks("hold_start")
        self.lets("at_try")
        running = self.script(*words)
        process = self.comes_to("try")[0]
        comes(lambda: not os.path.exists(f"/proc/{process}"), "the try has ended and was looked at")
        time.sleep(0.3)
        shown = running.err.read_text().splitlines()
        self.lets("hold_start")
        self.status, _, self.errors = self.ends(running)
        self.record.unlink(missing_ok=True)
        return [it for it in shown if it.startswith(MARK)]

    def test_the_answer_before_the_proof(self):
        words = ["bars 5 m", "--workers", "3"]
        self.assertEqual(self.shown("day", *words), [f"{MARK}{it}" for it in self.answer(words).splitlines()])
        given = self.noted("try_words").splitlines()
        self.assertEqual((given[:2], given[3:], self.status), (["try", "--data"], ["--", "day", *words], 0))
        self.assertEqual(self.shown("day", "fault")[-1], f"{MARK}fault: as asked")
        self.assertEqual((self.status, self.errors.count("fault: as asked")), (1, 2))
        self.file("here/day", b"a line\n" * 100)
        lines = self.shown("day", "sales")
        self.assertEqual((len(lines), lines[-1]), (21, f"{MARK}(and 82 lines more)"))
        # What doesn't end well is not shown.
        self.file("stand_in/says", b"checked: fault: an index out of bounds\nrun=fault proved=no\n")
        self.assertEqual((self.shown("day", "sales"), self.status), ([], 0))

    def test_another_answer_than_was_shown_is_not_used(self):
        self.asks("lies_proved")
        self.shown("day", "sales")
        self.tells(self.errors, "something else than was shown")
        self.assertEqual((self.status, self.program.exists(), self.record.exists()), (70, False, False))

    def test_only_small_regular_files_are_tried(self):
        os.mkfifo(self.here / "pipe")
        for name, length in (("long", (16 << 20) + 1), ("just", 16 << 20), ("-", 6)):
            os.truncate(self.file(f"here/{name}"), length)
        for name in ("-", "long", "pipe", "just"):
            running, _ = self.held("start", file=name)
            time.sleep(0.5)
            self.assertEqual((name, self.noted("try_words") != ""), (name, name == "just"))
            running.terminate()
            self.ends(running)
