"""A desk whose program is missing, is killed, ends within an answer or answers something else: none of it is taken
for an answer, and nothing hangs."""
import os
import signal
import stat
import sys
import threading
import time
import unittest
from unittest import mock

from paltinoma import Desk, DeskFailed, DeskMissing, Record, Refused, slot

from tests.given import BASE, InFolder


NO_ANSWERS = """bad-request 3

ok
ok 0G
ok 012
ok 00 00
refused
refused 13
refused 13 0 0 0
refused x 0
refused 13 0 3
refused 13 0 -1
refused 16 0
ok \xff
""".splitlines(
    keepends=True
)


class Failing(InFolder):
    def program(self, lines):
        """A program in Python in the place of refdesk; as that, it ends where nobody reads its answers."""
        path = self.folder / "refdesk"
        path.write_text(
            f"#!{sys.executable}\nimport signal, sys, time\nsignal.signal(signal.SIGPIPE, signal.SIG_DFL)\n{lines}\n"
        )
        path.chmod(path.stat().st_mode | stat.S_IXUSR)
        return path

    def answering(self, answer):
        """One that answers each line so."""
        return self.program(f"for line in sys.stdin: sys.stdout.write({answer!r}); sys.stdout.flush()")

    def test_missing(self):
        with self.assertRaisesRegex(DeskMissing, "nowhere can't be started: No such file or directory"):
            Desk(self.folder / "nowhere")
        unrunnable = self.folder / "text"
        unrunnable.write_text("no program")
        self.assertRaises(DeskMissing, Desk, unrunnable)

    def test_not_built(self):
        with mock.patch.dict(os.environ, {"PATH": str(self.folder)}), mock.patch(
            "paltinoma.HERE", self.folder / "python"
        ):
            os.environ.pop("REFDESK", None)
            with self.assertRaisesRegex(DeskMissing, "there is no refdesk: put it on the PATH"):
                Desk()
            self.file("", "crates.txt")
            with self.assertRaisesRegex(DeskMissing, "refdesk is not built yet: `make` in"):
                Desk()

    def test_named(self):
        """By an argument, by the environment, and by the PATH."""
        path = self.answering("refused 1 0\n")
        with mock.patch.dict(os.environ, {"REFDESK": str(path)}), Desk() as desk:
            self.assertRaises(Refused, desk.read, 48, BASE)
        with mock.patch.dict(os.environ, {"PATH": f"{self.folder}:{os.environ['PATH']}"}), Desk("refdesk") as desk:
            self.assertEqual(desk.program, str(path))

    def test_killed(self):
        with Desk() as desk:
            self.assertEqual(desk.read(48, BASE).present, ("M4E", "ERR"))
            os.killpg(desk._process.pid, signal.SIGKILL)
            with self.assertRaisesRegex(DeskFailed, "ended without an answer"):
                desk.read(48, BASE)
            with self.assertRaisesRegex(DeskFailed, "closed"):
                desk.read(48, BASE)

    def test_killed_while_it_is_asked(self):
        with Desk(self.program("for line in sys.stdin: time.sleep(60)")) as desk:
            threading.Timer(0.3, os.killpg, (desk._process.pid, signal.SIGKILL)).start()
            self.assertRaises(DeskFailed, desk.read, 48, BASE)

    def test_torn(self):
        """Half of a right answer, which would be a right answer itself."""
        with Desk(self.program("sys.stdin.readline(); sys.stdout.write('ok 062806')")) as desk:
            with self.assertRaisesRegex(DeskFailed, "ended within an answer"):
                desk.remove(48, BASE, slot("ERR"), "ERR")
            self.assertRaises(DeskFailed, desk.read, 48, BASE)

    def test_other_answers(self):
        """What has not the form of an answer to that request is none, and the desk is closed behind it."""
        for answer, name, *args in (
            *((answer, "remove", 48, BASE, slot("ERR"), "ERR") for answer in NO_ANSWERS),
            ("ok 3 3 0100\n", "view", 48, BASE, "ERR"),
            ("ok 3 48 32\n", "read", 48, BASE),
            ("ok x 48 32" + " 0" * 85 + "\n", "read", 48, BASE),
            ("ok 3 48 32" + " 0" * 86 + "\n", "read", 48, BASE),
            ("ok 3 3 3 010000\n", "choose", 48, BASE, BASE, "ERR"),
            ("ok 0 3 3 010000\n", "choose", 48, BASE, BASE, "ERR"),
            ("ok 062806010000\n", "rebuild", "x"),
            ("refused 13 0 2\n", "remove", 48, BASE, slot("ERR"), "ERR"),
            ("refused 15 0\n", "choose", 48, BASE, BASE, "ERR"),
            ("refused 6 -1\n", "read", 48, BASE),
            ("ok\n", "sheet", 48, BASE),
            ("ok cat=48 len=6 end=ok\n", "sheet", 48, BASE),
            ("ok cat=48 len=6 items=ERR ERR end=ok\n", "sheet", 48, BASE),
            ("ok cat=48 len=6 items=ERR ERR=1\n", "sheet", 48, BASE),
        ):
            with Desk(self.answering(answer)) as desk:
                with self.assertRaisesRegex(DeskFailed, f"gave no answer to {name}", msg=answer):
                    getattr(desk, name)(*args)
                with self.assertRaisesRegex(DeskFailed, "the desk is closed"):
                    getattr(desk, name)(*args)

    def test_interrupted(self):
        """An answer that comes after the interruption is not taken for the next one's."""

        class Stopped(BaseException):
            pass

        def stop(*_):
            raise Stopped

        before = signal.signal(signal.SIGALRM, stop)
        self.addCleanup(signal.signal, signal.SIGALRM, before)
        with Desk(self.program("for line in sys.stdin: time.sleep(1); print('ok 0200', flush=True)")) as desk:
            signal.setitimer(signal.ITIMER_REAL, 0.3)
            self.assertRaises(Stopped, desk.remove, 48, BASE, slot("ERR"), "ERR")
            self.assertRaises(DeskFailed, desk.remove, 48, BASE, slot("ERR"), "ERR")

    def test_deaf(self):
        """A program that does not end when its input does is ended."""
        desk = Desk(self.program("time.sleep(600)"))
        with mock.patch("paltinoma.PATIENCE", 0.2):
            desk.close()
        self.assertEqual(desk._process.returncode, -signal.SIGKILL)

    def test_stalled(self):
        """Another thread can end a desk that does not answer, and who waits for the answer is told."""
        desk = Desk(self.program("for line in sys.stdin: time.sleep(600)"))
        with mock.patch("paltinoma.PATIENCE", 0.2):
            threading.Timer(0.3, desk.close).start()
            self.assertRaises(DeskFailed, desk.read, 48, BASE)

    def test_closed_by_a_signal(self):
        desk = Desk(self.program("for line in sys.stdin: time.sleep(600)"))
        before = signal.signal(signal.SIGALRM, lambda *_: desk.close())
        self.addCleanup(signal.signal, signal.SIGALRM, before)
        with mock.patch("paltinoma.PATIENCE", 0.2):
            signal.setitimer(signal.ITIMER_REAL, 0.3)
            self.assertRaises(DeskFailed, desk.read, 48, BASE)

    def test_forked(self):
        """A forked process is told that the desk is not its own, and can't end it; the opener's answers stay right."""
        with Desk() as desk:
            child = os.fork()
            if child == 0:
                try:
                    desk.read(48, BASE)
                    os._exit(1)
                except DeskFailed:
                    desk.close()
                    os._exit(42)
            self.assertEqual(os.waitstatus_to_exitcode(os.waitpid(child, 0)[1]), 42)
            self.assertEqual(desk.read(48, BASE)["ERR"], 65536)

    def test_forked_while_it_is_asked(self):
        """A forked process does not wait for a turn that nobody in it gives back."""
        with Desk(self.program("for line in sys.stdin: time.sleep(1); print('refused 1 0', flush=True)")) as desk:
            asked = threading.Thread(target=self.assertRaises, args=(Refused, desk.read, 48, BASE))
            asked.start()
            time.sleep(0.3)
            child = os.fork()
            if child == 0:
                try:
                    desk.read(48, BASE)
                except DeskFailed:
                    desk.close()
                os._exit(42)
            self.assertEqual(os.waitstatus_to_exitcode(os.waitpid(child, 0)[1]), 42)
            asked.join()

    def test_nothing_behind_a_garbled_answer(self):
        """A thread that waits for its turn does not get what follows an answer that is none."""
        got = []

        def ask(desk):
            try:
                got.append(desk.remove(48, BASE, slot("ERR"), "ERR"))
            except DeskFailed:
                got.append(None)

        with Desk(
            self.program("sys.stdin.readline(); time.sleep(0.5); print('ok x\\nok 0200\\nok 0200', flush=True)")
        ) as desk:
            threads = [threading.Thread(target=ask, args=(desk,)) for _ in range(3)]
            for thread in threads:
                thread.start()
            for thread in threads:
                thread.join()
        self.assertEqual(got, [None, None, None])

    def test_closed_refuses_nothing(self):
        """Also what is refused without being sent."""
        desk = Desk()
        desk.close()
        self.assertRaises(DeskFailed, desk.rebuild, "x" * 40000)
        self.assertRaises(DeskFailed, desk.write, Record(48, 256))

    def test_closed_twice(self):
        desk = Desk()
        desk.close()
        desk.close()
        self.assertEqual(desk._process.returncode, 0)

    def test_threads(self):
        """Each thread gets the answers to what it asked."""
        wrong = []

        def ask(desk, number):
            field = bytes([5, 8, 0, 0, number])
            wrong.extend(got for got in (desk.read(48, field)["ERR"] for _ in range(200)) if got != number)

        with Desk() as desk:
            threads = [threading.Thread(target=ask, args=(desk, number)) for number in range(8)]
            for thread in threads:
                thread.start()
            for thread in threads:
                thread.join()
        self.assertEqual(wrong, [])


if __name__ == "__main__":
    unittest.main()
