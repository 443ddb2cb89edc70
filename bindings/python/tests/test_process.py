"""What becomes of open kernels with their process: at the interpreter's end, in its threads, in others, by signals, and over 100,000 lives.
Each scene is a process of its own, which has to end well and to say what stands there."""
import os
import pathlib
import shutil
import subprocess
import sys
import tempfile
import textwrap
import unittest

LIVES = int(os.environ.get("LIVES", "100000"))
BEGIN = "import histar\nfrom histar import Entry, Kernel, Label, Object, Seat, calls\n"


def library():
    """The folder of the library that the package loads."""
    import histar

    return pathlib.Path(histar._library._place()).parent


def ended(scene, **env):
    """How a scene ends: its status and what it said."""
    words = [sys.executable, "-X", "faulthandler", "-W", "error", "-c", BEGIN + textwrap.dedent(scene)]
    done = subprocess.run(words, capture_output=True, text=True, timeout=300, env={**os.environ, **env})
    return done.returncode, done.stdout + done.stderr


class Process(unittest.TestCase):
    def plays(self, said, scene, **env):
        self.assertEqual(ended(scene, **env), (0, said))

    def test_exit_with_open_kernels(self):
        self.plays("open\n", """
            import atexit
            kernel = Kernel(64)
            boot = kernel.session()
            seat = Seat(64)
            reader = seat.reader()
            cycle = [kernel, seat, reader]
            cycle.append(cycle)
            print("open")
        """)

    def test_a_call_after_the_end(self):
        """What runs after the package's own end finds the kernel closed."""
        self.plays("Unavailable\n", """
            import atexit
            import histar as again
            atexit.unregister(again.kernel._close_all)
            kernel = Kernel(64)
            boot = kernel.session()
            def late():
                try:
                    boot.cat_create()
                except histar.Refused as refused:
                    print(refused.name)
            atexit.register(late)
            atexit.register(again.kernel._close_all)
        """)

    def test_daemons_that_call_at_the_end(self):
        self.plays("end\n", """
            import threading
            kernel = Kernel(64)
            def calls_on():
                while True:
                    try:
                        kernel.session().self_get()
                    except histar.Unavailable:
                        pass
            for _ in range(8):
                threading.Thread(target=calls_on, daemon=True).start()
            print("end")
        """)

    def test_daemons_that_dump_at_the_end(self):
        self.plays("end\n", """
            import threading, time
            kernel = Kernel(64)
            kernel.log_on(keep=histar.Keep.ALL)
            for _ in range(500):
                kernel.session().self_get()
            def dumps_on():
                while True:
                    try:
                        kernel.dump()
                    except histar.Refused:
                        pass
            for _ in range(3):
                threading.Thread(target=dumps_on, daemon=True).start()
            time.sleep(0.05)
            print("end")
        """)

    def test_closes_beside_dumps(self):
        """A close while another thread gathers a dump is made or refused Busy, and the dump is whole or refused."""
        self.plays("whole True\n", """
            import threading
            whole = True
            for _ in range(60):
                kernel = Kernel(8)
                kernel.log_on(keep=histar.Keep.ALL)
                for _ in range(100):
                    kernel.session().self_get()
                def dumps(kernel):
                    global whole
                    try:
                        whole = whole and kernel.dump().endswith(b"\\n")
                    except (histar.Unavailable, histar.Busy):
                        pass
                thread = threading.Thread(target=dumps, args=(kernel,))
                thread.start()
                try:
                    kernel.close()
                except histar.Busy:
                    pass
                thread.join()
                kernel.close()
            print("whole", whole)
        """)

    def test_signals(self):
        """A handler that raises costs one call, wherever it comes, and one that calls is answered as any."""
        self.plays("True True\n", """
            import signal, time
            kernel = Kernel(64)
            boot = kernel.session()
            note = Entry.in_root(boot.segment_create(Object.ROOT, Label(1), 2, 1))
            boot.segment_write(note, 0, b"mine")
            class Left(Exception):
                pass
            made = []
            handling = []
            def handles(_, frame):
                if handling:
                    return
                handling.append(1)
                made.append(boot.segment_read(note, 0, 4) == b"mine")
                handling.clear()
                if len(made) % 2 and "histar" in frame.f_code.co_filename:
                    raise Left
            signal.signal(signal.SIGALRM, handles)
            signal.setitimer(signal.ITIMER_REAL, 0.001, 0.0005)
            left, until = 0, time.monotonic() + 2
            while time.monotonic() < until:
                try:
                    boot.self_get()
                    kernel.checkpoint()
                except Left:
                    left += 1
            signal.setitimer(signal.ITIMER_REAL, 0)
            kernel.close()
            print(all(made), left > 10)
        """)

    def test_collections_in_the_middle(self):
        """The collector runs at each step, and ends kernels, seats and readers in cycles."""
        self.plays("0 left\n", """
            import gc
            gc.set_threshold(1, 1, 1)
            for _ in range(100):
                seat = Seat(8)
                reader = seat.reader()
                session = reader.session()
                held = [seat, reader, session, seat.another()]
                held.append(held)
                session.self_get()
            del seat, reader, session, held
            gc.collect()
            Kernel(8).close()
            gc.collect()
            print(len(histar.kernel._left), "left")
        """)

    def test_children(self):
        """A child of fork ends without touching what its parent has, and opens its own."""
        self.plays("child\nparent\n", """
            import os, sys
            kernel = Kernel(64)
            seat = Seat(64)
            boot = kernel.session()
            child = os.fork()
            if not child:
                del kernel, seat, boot
                with Kernel(64) as own:
                    own.session().cat_create()
                print("child")
                sys.exit(0)
            assert os.waitpid(child, 0)[1] == 0
            boot.cat_create()
            kernel.close()
            seat.close()
            print("parent")
        """)

    def test_other_interpreters(self):
        self.plays("1\n2\n3\n", """
            try:
                import _xxsubinterpreters as interpreters
            except ImportError:
                import _interpreters as interpreters
            for number in (1, 2, 3):
                other = interpreters.create()
                interpreters.run_string(other, "import histar\\nk = histar.Kernel(8)\\nk.session().cat_create()\\nprint(%d, flush=True)" % number)
                interpreters.destroy(other)
        """)

    def test_memory_over_many_lives(self):
        """Kernels come and go, and the process does not grow."""
        self.plays("flat\n", f"""
            import resource
            def lives(count):
                for number in range(count):
                    kernel = Kernel(8)
                    boot = kernel.session()
                    boot.cat_create()
                    if number % 3 == 0:
                        kernel.close()
                    elif number % 3 == 1:
                        kernel.checkpoint()
                return resource.getrusage(resource.RUSAGE_SELF).ru_maxrss
            before = lives({LIVES} // 10)
            after = lives({LIVES})
            print("flat" if after - before < 512 else f"{{before}} {{after}}")
        """)

    def test_memory_over_many_calls(self):
        self.plays("flat\n", f"""
            import resource
            seat = Seat(64)
            boot = seat.session()
            note = Entry.in_root(boot.segment_create(Object.ROOT, Label(1), 2, 1))
            def calls_on(count):
                for _ in range(count):
                    boot.segment_write(note, 0, b"bytes")
                    boot.segment_read(note, 0, 64)
                    boot.self_get()
                    try:
                        boot.segment_read(note, 300, 64)
                    except histar.Bounds:
                        pass
                return resource.getrusage(resource.RUSAGE_SELF).ru_maxrss
            before = calls_on({LIVES} // 10)
            after = calls_on({LIVES} // 2)
            print("flat" if after - before < 512 else f"{{before}} {{after}}")
        """)

    # ---- Libraries that are not this package's ----

    def test_no_library(self):
        status, said = ended("", HISTAR_LIB="/nowhere")
        self.assertEqual(status, 1)
        self.assertIn("ImportError: histar: the library is not there", said)

    def test_other_layouts(self):
        """A library whose records mean something else is refused at the import, as is an older one; one that says one more is taken."""
        with tempfile.TemporaryDirectory() as room:
            for layout, status in ((2001, 1), (1000, 1), (1002, 0)):
                text = (library() / "libhistar.so.0").read_bytes()
                answers = [b"\xb8" + number.to_bytes(4, "little") + b"\xc3" for number in (1001, layout)]  # (the function: mov, ret)
                self.assertIn(answers[0], text)
                (pathlib.Path(room) / "libhistar.so.0").write_bytes(text.replace(*answers))
                found, said = ended("", HISTAR_LIB=room)
                self.assertEqual(found, status, said)
                if status:
                    self.assertIn(f"layout {layout}", said)

    def test_older_libraries(self):
        """A library without a function of the package's is told at the import."""
        compiler = shutil.which("cc")
        if not compiler:
            self.skipTest("no C compiler is there")
        with tempfile.TemporaryDirectory() as room:
            subprocess.run([compiler, "-shared", "-x", "c", "/dev/null", "-o", f"{room}/libhistar.so.0"], check=True)
            status, said = ended("", HISTAR_LIB=room)
            self.assertEqual(status, 1)
            self.assertIn("is older than this package", said)


if __name__ == "__main__":
    unittest.main()
