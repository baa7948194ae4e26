# SPDX-License-Identifier: Apache-2.0 OR BSD-3-Clause
"""The programs of README.md and of the pages that explain do what is said of them, as they stand there."""
import fcntl
import os
import platform
import re
import subprocess
import time
from concurrent.futures import ThreadPoolExecutor
from pathlib import Path

import pytest
from documents import CODE, Document
from harness import LIMIT, ROOT, at_least, check, run
from test_links import SOURCE

PACKAGE = '[package]\nname = "hi"\nversion = "0.1.0"\nedition = "2021"\n\n'
LIBRARY = ROOT / "prebuilt" / f"{platform.machine()}-linux" / "libsuperio_c.a"
# The program of docs/C.md, which shows what a monitor keeps of it.
CONSOLE = (ROOT / "examples/console.c").read_text(encoding="utf-8")
# What the programs of README.md print.
HI = ("wake your event loop: the guest takes input now\n2 bytes accepted, 1 interrupt to raise\nthe guest reads h\n"
      "1 interrupt to raise for the byte that is left\n")
MONITOR = "fn event_loop"   # which the whole monitor of docs/RUST.md has
LIBC = 'libc = "0.2"\n'   # which docs/RUST.md adds for it below the crate of ours
USER = '[dependencies]\nvm-superio = "0.8"\n\n'   # what a user of vm-superio has before
# Words for Cargo, which then takes crates of others from Debian's folder.
FROM_DEBIAN = ["--config", 'source.crates-io.replace-with="debian"', "--config",
               'source.debian.directory="/usr/share/cargo/registry"']
# What the program of docs/RUST.md with a bus prints: the clock twice, a read of the port, and the reset.
BUS = "".join(f"{line}\n" for line in [*["the timer goes off at 1700000060"] * 2, *[
    "Work { interrupts: 0, is_up: false, wakes: false }"] * 2])
# The lines of a write; and around a line that loses edges, others.
WRITE = re.compile(r"^    if \(interrupt\(superio_console_write\(.*\n.*\n", re.M)
# The function of a line that takes edges; and what a monitor has for one that takes levels.
INTERRUPT = re.compile(r"(?:^/\*[^/]*\*/\n)?^static \w+ interrupt\(.*?^\}\n", re.M | re.S)
# What a monitor adds to the functions of docs/PORT.md for a guest that begins to poll, or no longer does.
SET_POLLED = "void set_polled(bool polls);\nvoid set_polled(bool polls) { is_polled = is_ready = polls; }\n"
LEVEL = "bool level(void);\nbool level(void) { return superio_serial_interrupt_line(&port); }\n"
# And for a machine that is restored, by what the page says of a snapshot for each kind of line.
RESTORE = ("void restore(const superio_serial *saved);\n"
           "void restore(const superio_serial *saved) {{ port = *saved; {} }}\n")
STEPS = {"edges": "is_refused = true; retry(0);", "levels": "retry(0); set_line(was_up);"}
# How long the guest is held until the reader of its output takes some. Afterwards the program drops output.
A_SECOND = "    end.tv_sec++;\n"
# The first access of the guest. A kernel whose driver makes another before has been started by a loader that polls.
READY = "    write_access(1, 0x01);"
PROBE = """    write_access(1, 0x0F);
    pthread_mutex_lock(&lock);
    if (superio_console_wants(&console).input > 0)
        abort();
    pthread_mutex_unlock(&lock);
"""
SET_PIPE_SIZE = 1031   # of Linux, which Python 3.9 does not name
# The function of the program in Rust for a line that takes edges; and what a monitor has for one that takes levels.
CARRY_OUT = re.compile(r"(?:^    ///[^\n]*\n)+    fn carry_out\(.*?^    \}\n", re.M | re.S)
LEVEL_FIELD = [("    is_off: AtomicBool,\n", "    is_off: AtomicBool,\n    was_up: AtomicBool,\n"),
               ("is_off: AtomicBool::new(false),", "is_off: AtomicBool::new(false), was_up: AtomicBool::new(false),")]
SET_LINE_IN_RUST = """
    fn set_line(&self, is_up: bool) {
        if is_up {
            let _ = signal(&self.irq);
        }
    }
"""
# One that tells what the line got, as accesses.rs counts it. And how accesses.rs makes a monitor, and knows its lines.
SET_BOTH_IN_RUST = """
    fn set_line(&self, is_up: bool) {
        (0..1 + u8::from(is_up)).for_each(|_| assert!(signal(&self.irq).is_ok()));
    }
"""
# What changes with the console, and before it whether somebody has the lock.
IS_STUCK = re.compile(r"(?=self\.is_stuck\.store)")
LOCKED = 'assert!(self.console.try_lock().is_err(), "a flag is changed without the lock"); '
MADE_IN_RUST = """
const LEVELS: bool = {};
const STOPS_POLLING: bool = {};

fn made(console: Console) -> Monitor {{
    let (console, has_room, is_stuck) = (Mutex::new(console), Condvar::new(), AtomicBool::new(true));
    Monitor {{ console, has_room, is_stuck, is_off: AtomicBool::new(false), irq: eventfd(), wake_up: eventfd() }}
}}
"""
# As PROBE and READY, in Rust. Before them, the end of a write there.
END_OF_WRITE_IN_RUST = "        self.end_access(&mut console, work);\n"
READY_IN_RUST = "    monitor.write_access(1, 0x01);"
PROBE_IN_RUST = """    monitor.write_access(1, 0x0F);
    assert_eq!(monitor.console.lock().unwrap().wants().input, 0);
"""
# What a monitor adds to the lines for levels in C. And one that tells what the line got, for accesses.c.
SET_LINE = """static void set_line(bool is_up) {
    if (is_up)
        eventfd_write(irq, 1);
}
"""
SET_BOTH = "static void set_line(bool is_up) { eventfd_write(irq, is_up ? 2 : 1); }\n"


# The blocks of code that a test here takes, by their document and language: of each a text that no other one has.
TAKEN = {
    ("README.md", "c"): ["int main"], ("README.md", "rust"): ["Console"],
    ("README.md", "toml"): ["rust/superio", "rust/vm-superio"],
    ("docs/C.md", "c"): ["static void event_loop", "static void port_write", "serve_exit", "STRIDE", "set_line",
                         "bool wakes", "set_polled"],
    ("docs/CLOCK.md", "c"): ["struct machine {", "take_moment(struct", "memory_read", "timerfd_create", "files[3]",
                             "uint64_t host"],
    ("docs/PORT.md", "c"): ["write_access", "set_line"],
    ("docs/PORT.md", "rust"): ["Cell", "from_snapshot", "L: Trigger"],
    ("docs/RUST.md", "rust"): ["fn event_loop", "was_up.swap", "set_polled", "is_reset_command"],
    ("docs/RUST.md", "toml"): ["rust/superio", "rust/vm-superio"],
    ("docs/SNAPSHOTS.md", "c"): ["static void save("],
    ("rust/superio/README.md", "rust"): ["fn make_turn"],
}
# Those that another file of tests takes.
TAKEN_ELSEWHERE = {
    ("docs/C.md", "cmake", "project"): "packages/test_installation_of_c.py",
    ("docs/C.md", "meson", "project"): "packages/test_installation_of_c.py",
    ("docs/RATTLE.md", "rust", "second_waits"): "documents/test_paste.py",
    ("docs/RELEASE.md", "toml", ""): "packages/test_manifests.py",
}
# What is no code: test_paste.py runs commands, and other tests compare what is printed.
NO_CODE = {"console", "sh", "text"}
# Of a program in C whose functions are called without its `main`. What only that calls is not even compiled.
WITHOUT_MAIN = ("int main(", "__attribute__((unused)) static int main_of_the_page(")
PAGES = ["README.md", *sorted(f"docs/{path.name}" for path in (ROOT / "docs").glob("*.md"))]


def blocks_of(document, language):
    """The blocks of a document that are in a language, without excerpts."""
    return ["\n".join([*block.lines, ""]) for block in Document(document).blocks
            if block.language == language and not SOURCE.search(block.before)]


def code(document, language, of):
    """The one block of a document that is in a language and has a text."""
    assert of in TAKEN[document, language]
    [block] = [block for block in blocks_of(document, language) if of in block]
    return block


@pytest.mark.parametrize("page", at_least(20, PAGES))
def test_each_block_of_code_is_taken(page):
    """So none stands on a page that nothing compiles or compares. test_links.py takes excerpts."""
    for language in {block.language for block in Document(page).blocks} - NO_CODE:
        taken = [code(page, language, of) for of in TAKEN.get((page, language), [])]
        for (other, its, of), file in TAKEN_ELSEWHERE.items():
            if (other, its) == (page, language):
                text = (ROOT / "tests" / file).read_text(encoding="utf-8")
                assert Path(page).stem in text and f'"{language}"' in text
                taken += [block for block in blocks_of(page, language) if of in block]
        assert sorted(taken) == sorted(blocks_of(page, language)), f"{page}: TAKEN names not each block of {language}"


def test_each_text_of_a_block_is_used():
    """A row of TAKEN is there for a test."""
    here = Path(__file__).read_text(encoding="utf-8")
    for (page, _), texts in TAKEN.items():
        for of in texts:
            rows = sum(other == of for texts in TAKEN.values() for other in texts)
            assert here.count(f'"{of}"') > rows, f"no test takes the block of {page} that has {of}"


def compile_c(folder, name, source, *words):
    (folder / f"{name}.c").write_text(source, encoding="utf-8")
    check(["cc", "-Wall", "-Wextra", "-Werror", "-I", ROOT / "bindings/c", f"{name}.c", *words], cwd=folder)


@pytest.mark.needs("cc")
def test_c(tmp_path):
    compile_c(tmp_path, "hi", code("README.md", "c", "int main"), LIBRARY, "-o", "hi")
    check(["./hi"], HI, cwd=tmp_path)


def program_for(line):
    """The program of docs/C.md, with its lines for such an interrupt line, or for a loader that polls."""
    place, lines = {"edges": (WRITE, r"\g<0>"),
                    "edges that get lost": (WRITE, code("docs/C.md", "c", "bool wakes")),
                    "levels": (INTERRUPT, code("docs/C.md", "c", "set_line") + SET_LINE),
                    "a loader that polls": (WRITE, rf"\g<0>{code('docs/C.md', 'c', 'set_polled')}")}[line]
    program, count = place.subn(lines, CONSOLE)
    assert count == 1
    return program


@pytest.mark.needs("cc")
@pytest.mark.parametrize("line", ["edges", "edges that get lost", "levels"])
def test_event_loop(line, tmp_path):
    """More input comes back than all queues hold, also if its reader begins late: for a reader that a busy machine keeps
    waiting the guest is held longer than the second of the page."""
    program = program_for(line)
    compile_c(tmp_path, "console", program, LIBRARY, "-pthread", "-o", "console")
    check(["./console"], "HELLO\n", cwd=tmp_path, input="hello\n")
    assert program.count(A_SECOND) == 1
    compile_c(tmp_path, "patient", program.replace(A_SECOND, f"    end.tv_sec += {LIMIT};\n"), LIBRARY, "-pthread", "-o",
              "patient")
    text = "the quick brown fox " * 10_000 + "\n"
    check(["sh", "-c", "./patient | (sleep 0.2; cat)"], text.upper(), cwd=tmp_path, input=text)


@pytest.mark.needs("cc")
def test_loader_that_polls(tmp_path):
    """With the lines for a kernel that does not poll, input no longer goes in after the probe of its driver, until the
    driver is ready."""
    program = program_for("a loader that polls")
    assert program.count(READY) == program.count("new(&console, false)") == 1
    program = program.replace(READY, PROBE + READY).replace("new(&console, false)", "new(&console, true)")
    compile_c(tmp_path, "console", program, LIBRARY, "-pthread", "-o", "console")
    check(["./console"], "HELLO\n", cwd=tmp_path, input="hello\n")


@pytest.mark.needs("cc")
@pytest.mark.parametrize("name", ["console", "machine"])
def test_files_are_left_as_they_were(name, tmp_path):
    compile_c(tmp_path, "monitor", WITH_FILES[name], LIBRARY, "-pthread", "-o", "monitor")
    check_files_stay(tmp_path / "monitor")


def check_files_stay(program):
    """They do not block while the program runs. The shell uses them, too: at the end each blocks again."""
    (to_program, typed), (printed, from_program) = os.pipe(), os.pipe()

    def flags():
        return {fcntl.fcntl(file, fcntl.F_GETFL) & os.O_NONBLOCK for file in (to_program, from_program)}

    with subprocess.Popen([program], stdin=to_program, stdout=from_program) as running:
        os.write(typed, b"h")
        first, while_running = os.read(printed, 1), flags()
        os.write(typed, b"ello\n")
    assert (first, while_running) == (b"H", {os.O_NONBLOCK})
    assert running.returncode == 0 and os.read(printed, 100).startswith(b"ELLO\n") and flags() == {0}
    for file in (to_program, typed, printed, from_program):
        os.close(file)


@pytest.mark.needs("cc")
@pytest.mark.parametrize("name", ["console", "machine"])
def test_a_reader_that_goes_away(name, tmp_path):
    """The program goes on without the reader of its output, until its guest is off."""
    compile_c(tmp_path, "monitor", WITH_FILES[name], LIBRARY, "-pthread", "-o", "monitor")
    reader, writer = os.pipe()
    os.close(reader)
    with subprocess.Popen([tmp_path / "monitor"], stdin=subprocess.PIPE, stdout=writer) as running:
        os.close(writer)
        running.communicate(b"hello\n")
    assert running.returncode == 0


@pytest.mark.needs("cc")
@pytest.mark.parametrize("name, of", [("console", ""), ("machine", "machine->")])
def test_a_guest_that_is_off_late(name, of, tmp_path):
    """The event loop has long been asleep, and ends nevertheless."""
    off = f"    pthread_mutex_lock(&{of}lock);\n    {of}is_off = true;\n"
    program = edited(WITH_FILES[name], [(off, f"    poll(NULL, 0, 200);\n{off}")])
    compile_c(tmp_path, "monitor", program, LIBRARY, "-pthread", "-o", "monitor")
    assert check([tmp_path / "monitor"], input="hello\n").startswith("HELLO\n")


@pytest.mark.needs("cc")
def test_output_that_waits_at_the_end(tmp_path):
    """The reader takes nothing until the guest is long off: its pipe of a page is full. All output then arrives."""
    compile_c(tmp_path, "console", CONSOLE, LIBRARY, "-pthread", "-o", "console")
    reader, writer = os.pipe()
    before, text = b"-" * fcntl.fcntl(writer, SET_PIPE_SIZE, 4096), b"the quick brown fox " * 150 + b"\n"
    os.write(writer, before)
    with subprocess.Popen([tmp_path / "console"], stdin=subprocess.PIPE, stdout=writer) as console:
        os.close(writer)
        console.stdin.write(text)
        console.stdin.close()
        time.sleep(0.5)
        with open(reader, "rb") as output:
            assert output.read() == before + text.upper()


WATCH = ROOT / "tests" / "documents" / "console_rules.c"
WRAPPED = [f"-Wl,--wrap={name}" for name in sorted({*re.findall(r"__wrap_(\w+)", WATCH.read_text(encoding="utf-8"))})]
MANY = "the quick brown fox " * 2_000 + "\n"   # several times what waits as output
WAIT = "pthread_cond_timedwait(&has_room, &lock, &end)"
# A rule that a monitor breaks, by an edit of the program of the page.
FORGETFUL = at_least(17, {
    "a refusal is not told": ("return superio_console_refuse(&console).wakes || work.wakes;", "break;"),
    "an edge is not raised": ("i < work.interrupts", "i + 1 < work.interrupts"),
    "an edge is raised that nobody asks for": ("i < work.interrupts", "i < work.is_up"),
    "the loop is not woken": (".wakes || work.wakes;", ".wakes;"),
    "the loop is woken for nothing": ("if (interrupt(done.work))", "if (interrupt(done.work) || offset == 5)"),
    "a guest is not held": ("                is_stuck = false;\n", ""),
    "a guest is not held, since its time ended as there was room": (" && superio_console_is_full(&console);", ";"),
    "a guest is held for nothing": ("(&console) && !is_stuck)", "(&console))"),
    "a guest that is held is not told of room": ("pthread_cond_broadcast(&has_room);", ""),
    "there is not one turn between two polls": ("interrupt(superio_console_turn(&console));",
                                                "if (files[0].revents) interrupt(superio_console_turn(&console));"),
    "it does not poll for input exactly if that is wanted": ("wants.input > 0 ? input", "wants.input > 32 ? input"),
    "it does not poll for room exactly if that is wanted": ("wants.output ? output", "wants.input > 0 ? output"),
    "its poll ends at another time": ("wants.turn ? 5 : -1", "-1"),
    "what has woken it wakes it again": ("if (files[0].revents)", "if (files[1].revents)"),
    "more input is read than is wanted": ("bytes, wanted);", "bytes, sizeof bytes);"),
    "other output is consumed than was written": ("consume(&console, (size_t)count)", "consume(&console, waiting)"),
    "a console is called without its lock": ("    pthread_mutex_lock(&lock);\n    superio_console_read_effects",
                                             "    superio_console_read_effects"),
}.items())
FORGETFUL += [("a limit is by a clock that can be set", edit) for edit in (
    ("clock_gettime(CLOCK_MONOTONIC", "clock_gettime(CLOCK_REALTIME"),
    ("&attributes, CLOCK_MONOTONIC", "&attributes, CLOCK_REALTIME"),
    ("pthread_condattr_setclock(&attributes, CLOCK_MONOTONIC);", ";"))]
FORGETFUL += [("a guest is not held", (f"{WAIT} != 0 && superio", f"({WAIT}, true) && superio"))]


@pytest.fixture(scope="module")
def watch(tmp_path_factory):
    """What console_rules.c compiles to, which is the same beside each program."""
    folder = tmp_path_factory.mktemp("watch")
    compile_c(folder, "watch", WATCH.read_text(encoding="utf-8"), "-c")
    return folder / "watch.o"


def watched(program, watch, folder):
    """What console_rules.c says of a program like that of the page, and its status."""
    compile_c(folder, "console", program, watch, LIBRARY, *WRAPPED, "-pthread", "-o", "console")
    ran = run([folder / "console"], input=MANY, stdout=subprocess.DEVNULL, stderr=subprocess.PIPE)
    return ran.returncode, ran.stderr


@pytest.mark.needs("cc")
def test_rules_of_the_event_loop(watch, tmp_path):
    """It keeps those of superio.h, whatever the interrupt line refuses and however long its reader takes nothing."""
    assert watched(CONSOLE, watch, tmp_path) == (0, "held 1, refused 1, dropped 1\n")


@pytest.mark.needs("cc")
@pytest.mark.parametrize("rule, edit", FORGETFUL, ids=lambda value: value if isinstance(value, str) else "")
def test_an_event_loop_that_breaks_a_rule(rule, edit, watch, tmp_path):
    program = CONSOLE
    assert program.count(edit[0]) == 1
    assert watched(program.replace(*edit), watch, tmp_path) == (3, f"{rule}\n")


# An event loop, where a statement of it begins, and where the guest begins to answer, by language.
LOOPS = {"c": (r"^static void \*?event_loop\(.*?^\}\n", r"^ {8}(?=[a-z])", r"^ {8}(?=while \(!\((?:read_access|in)\()"),
         "rust": (r"^    fn event_loop\(.*?^    \}\n", r"^ {12}(?=[a-z])", r"^ {8}(?=while monitor\.read_access\()")}
# A thread that loses its processor for so many milliseconds: the guest's, and at one place the loop's, for longer.
PAUSE = {"c": """#include <stdlib.h>
static void pause_at(int place) {
    if (place == 0 || place == atoi(getenv("PLACE")))
        poll(NULL, 0, place == 0 ? 20 : 60);
}
""", "rust": """    fn pause_at(place: u8) {
        if place == 0 || std::env::var("PLACE").unwrap() == place.to_string() {
            std::thread::sleep(Duration::from_millis(if place == 0 { 20 } else { 60 }));
        }
    }
"""}


def with_pauses(program, language):
    """A program that pauses before the statement of its event loop whose number PLACE is, and how many there are."""
    loop, statement, answer = (re.compile(form, re.M | re.S) for form in LOOPS[language])
    [text], call = loop.findall(program), {"c": "pause_at", "rust": "Monitor::pause_at"}[language]
    before, *parts = statement.split(text)
    indent = statement.search(text)[0]
    paused = "".join(f"{indent}{call}({place});\n{indent}{part}" for place, part in enumerate(parts, 1))
    program = edited(program, [(text, PAUSE[language] + before + paused)])
    program, count = answer.subn(rf"        {call}(0);\n\g<0>", program)
    assert count == 1
    return program, len(parts)


def printed_with_pauses(program, count):
    """What a program prints for a line of input, by the place where it pauses."""
    def printed(place):
        return run([program], input="hello\n", env={**os.environ, "PLACE": str(place)}).stdout

    places = at_least(10, range(1, count + 1))
    with ThreadPoolExecutor(16) as pool:
        return dict(zip(places, pool.map(printed, places)))


# What each program prints.
OF_LINE = {"console": "HELLO\n", "machine": (ROOT / "examples/c/expected").read_text(encoding="utf-8")}


@pytest.mark.needs("cc")
@pytest.mark.parametrize("name", OF_LINE)
def test_pauses(name, tmp_path):
    """All of the guest's output is written before the event loop ends, wherever its thread loses the processor."""
    program, count = with_pauses(WITH_FILES[name], "c")
    compile_c(tmp_path, "monitor", program, LIBRARY, "-pthread", "-o", "monitor")
    printed = printed_with_pauses(tmp_path / "monitor", count)
    assert printed == dict.fromkeys(printed, OF_LINE[name])


# How the input and the output fail. 0 is the end of the input.
FAILURES = [("0", "EPIPE"), ("EIO", "ENOSPC")]
NO_INPUT, NO_OUTPUT = "count == 0 || (errno != EAGAIN && errno != EINTR)", "count < 0 && errno != EAGAIN && errno != EINTR"
# Rules of files, each with a failure and an edit of a program that breaks it.
FORGETFUL_OF_FILES = at_least(8, [
    ("a file is not ready, and polled no more", FAILURES[0], NO_INPUT, "count == 0 || errno != EINTR"),
    ("a file is not ready, and polled no more", FAILURES[0], NO_INPUT, "count == 0 || errno != EAGAIN"),
    ("a file is not ready, and polled no more", FAILURES[0], NO_OUTPUT, "count < 0 && errno != EINTR"),
    ("a file is not ready, and polled no more", FAILURES[0], NO_OUTPUT, "count < 0 && errno != EAGAIN"),
    ("output is kept that nobody can take", FAILURES[0], "count = (ssize_t)waiting;", "count = 0;"),
    ("output is kept that nobody can take", FAILURES[1], NO_OUTPUT, "count < 0 && errno == EPIPE"),
    ("input is over, and polled again", FAILURES[0], NO_INPUT, "count < 0 && errno != EAGAIN && errno != EINTR"),
    ("input is over, and polled again", FAILURES[1], NO_INPUT, "count == 0"),
])
# The programs whose event loops meet failures.
WITH_FILES = {"console": CONSOLE,
              "machine": (ROOT / "examples/c/machine.c").read_text(encoding="utf-8")}


def said_of_files(program, failure, folder):
    """What failing_files.c says of a program like that of the page."""
    flags = [f"-D{name}_ERROR={error}" for name, error in zip(("READ", "WRITE"), failure)]
    wrapped = [f"-Wl,--wrap={name}" for name in ("poll", "read", "write", "superio_console_wants")]
    compile_c(folder, "console", program, ROOT / "tests/documents/failing_files.c", *flags, LIBRARY, *wrapped,
              "-pthread", "-o", "console")
    return run([folder / "console"], stdin=subprocess.DEVNULL).stdout


@pytest.mark.needs("cc")
@pytest.mark.parametrize("failure", FAILURES)
@pytest.mark.parametrize("program", WITH_FILES)
def test_files_that_fail(program, failure, tmp_path):
    """The event loop goes on without a file that has failed for good, and with one that is not ready."""
    assert said_of_files(WITH_FILES[program], failure, tmp_path) == "each rule is kept\n"


@pytest.mark.needs("cc")
@pytest.mark.parametrize("rule, failure, old, new", FORGETFUL_OF_FILES)
@pytest.mark.parametrize("program", WITH_FILES)
def test_an_event_loop_that_breaks_a_rule_of_files(program, rule, failure, old, new, tmp_path):
    assert WITH_FILES[program].count(old) == 1
    assert said_of_files(WITH_FILES[program].replace(old, new), failure, tmp_path) == f"{rule}\n"


# Beside the programs, how accesses.c names the lines in them.
ACCESSES = {"edges": "", "edges that get lost": "LOSES", "levels": "LEVELS", "a loader that polls": "STOPS_POLLING"}
WAKE = "the event loop is woken for nothing, or is not woken"
# Edits of a program whose accesses then are others, and what accesses.c says.
OTHER_ACCESSES = at_least(8, [
    ("edges", "if (interrupt(done.work))", "if (done.work.wakes)", "the line gets something else"),
    ("edges", "return done.byte;", "return (uint8_t)(done.byte & 0x7F);", "the console is another"),
    ("edges", "if (interrupt(done.work))\n", "if (interrupt(done.work) && offset > 0)\n", WAKE),
    ("edges that get lost", "offset == 1 &&", "offset == 2 &&", "the console is another"),
    ("edges that get lost", "|| wakes)", "&& wakes)", WAKE),
    ("levels", "    was_up = work.is_up;\n", "", "the line gets something else"),
    ("levels", "set_line(work.is_up);", "set_line(was_up);", "the line gets something else"),
    ("levels", "return work.wakes;", "return work.is_up;", WAKE),
    ("a loader that polls", "interrupt_enable & 0x01)", "interrupt_enable & 0x02)", "the console is another"),
    ("a loader that polls", "(&console, false))", "(&console, true))", "the console is another"),
])


def accesses(line, program, folder):
    """What accesses.c says of the accesses of a program."""
    program = program.replace(*WITHOUT_MAIN)
    assert (line == "levels") == (SET_LINE in program)
    program = program.replace(SET_LINE, SET_BOTH)
    program += (ROOT / "tests/documents/accesses.c").read_text(encoding="utf-8")
    flags = [f"-D{name}={int(own == line)}" for own, name in ACCESSES.items() if name]
    compile_c(folder, "accesses", program, *flags, LIBRARY, "-pthread", "-o", "accesses")
    return run([folder / "accesses"]).stdout


@pytest.mark.needs("cc")
@pytest.mark.parametrize("line", ACCESSES)
def test_accesses(line, tmp_path):
    """Each reaches the console once, and its work is carried out, whatever the line refuses."""
    assert accesses(line, program_for(line), tmp_path) == "each access is right\n"


@pytest.mark.needs("cc")
@pytest.mark.parametrize("line, old, new, said", OTHER_ACCESSES)
def test_other_accesses(line, old, new, said, tmp_path):
    program = program_for(line)
    assert program.count(old) == 1
    assert accesses(line, program.replace(old, new), tmp_path) == f"{said}\n"


WITHOUT_LOCK = "a device is used without the lock"
# Edits of machine.c, and the first step of clock.c that goes wrong.
OTHER_CLOCKS = at_least(19, [
    ("    pthread_mutex_lock(&machine->lock);\n    take_moment(machine);\n    superio_rtc_write",
     "    take_moment(machine);\n    pthread_mutex_lock(&machine->lock);\n    superio_rtc_write", WITHOUT_LOCK),
    ("    follow_clock(machine);\n    pthread_mutex_unlock(&machine->lock);\n    for",
     "    pthread_mutex_unlock(&machine->lock);\n    follow_clock(machine);\n    for", WITHOUT_LOCK),
    ("    saved->now = machine->now;\n    /* step 7 */\n    pthread_mutex_unlock(&machine->lock);\n",
     "    pthread_mutex_unlock(&machine->lock);\n    saved->now = machine->now;\n", "the clock is saved"),
    ("if (files[3].revents)", "if (files[2].revents)", "the alarm is found"),
    ("return eventfd_read(file, &count) == 0;", "return eventfd_read(file, &count) != 0;", "the guest is interrupted once"),
    ("if (due != SUPERIO_RTC_NEVER)\n", "if (due != 0)\n", "no alarm is set"),
    ("seconds(CLOCK_REALTIME) - seconds(CLOCK_BOOTTIME);", "seconds(CLOCK_MONOTONIC) - seconds(CLOCK_BOOTTIME);",
     "the clock is opened"),
    ("seconds(CLOCK_REALTIME) - seconds(CLOCK_BOOTTIME);", "seconds(CLOCK_REALTIME) - seconds(CLOCK_MONOTONIC);",
     "the clock is opened"),
    ("(seconds(CLOCK_BOOTTIME) + machine->ahead)", "seconds(CLOCK_BOOTTIME)", "the clock is opened"),
    ("(machine->now + due)", "due", "an alarm is set"),
    (" - machine->ahead", "", "an alarm is set"),
    ("TFD_TIMER_ABSTIME", "0", "an alarm is set"),
    ("address - CLOCK == RTCCR", "address - CLOCK == 0x100", "RTCCR is written"),
    ("if (is_up != machine->clock_was_up)\n", "", "no alarm is set"),
    ("machine->clock_was_up = is_up;", "(void)is_up;", "RTCMIS is read"),
    ("value >> 8 * (within + i)", "value >> 8 * i", "a byte is read"),
    ("within + count > 4", "within + count > 8", "two words are read"),
    ("count != 4", "count < 2", "two bytes are written"),
    ("(uint8_t)(port - COM1), value)", "0, value)", "the port is written"),
    ("is_reset = true;", "is_reset = false;", "the machine is reset"),
    ("host ? moment : host)", "host ? host : moment)", "the time of day is behind"),
    ("> host ? moment : host)", "> 0 ? moment : host)", "the time of day is ahead"),
    ("        follow_clock_again(machine);\n    }\n    pthread", "    }\n    pthread", "the clock is restored"),
    ("\n                   && superio_serial_is_coherent(&console.port)", "", "a snapshot is refused"),
    ("    if (is_good) {", "    superio_console_new(&machine->console, false);\n    if (is_good) {",
     "what is refused changes nothing"),
    ("    if (is_good) {", "    machine->clock = superio_rtc_new();\n    if (is_good) {",
     "what is refused changes nothing"),
    ("        machine->console = console;\n", "", "the console is restored"),
    ("= !superio_rtc_interrupt_line", "= superio_rtc_interrupt_line", "the line is set again"),
    ("    follow_clock(machine);\n}\n\nstatic bool is_clock",
     "    follow_clock(machine);\n    set_clock_line(machine, machine->clock_was_up);\n}\n\nstatic bool is_clock",
     "the line is set again"),
])
MACHINE = WITH_FILES["machine"]


def clock(machine, folder):
    """What clock.c says of a file machine.c."""
    program = (ROOT / "tests/documents/clock.c").read_text(encoding="utf-8")
    machine = edited(machine, [WITHOUT_MAIN,
                               ("static void set_clock_line(", "static void set_clock_line_of_the_page(")])
    calls = at_least(14, sorted({*re.findall(r"\b(superio_\w+)\(&machine->", machine)}))
    calls = "".join(f"#define {call}(...) (need_lock(), {call}(__VA_ARGS__))\n" for call in calls)
    program = edited(program, [("CALLS\n\n", calls), ("MACHINE\n\n", machine)])
    compile_c(folder, "clock", program, LIBRARY, "-pthread", "-o", "clock")
    return run([folder / "clock"]).stdout


@pytest.mark.needs("cc")
def test_clock(tmp_path):
    """The guest's accesses reach the devices, and the clock's line and timer follow."""
    assert clock(MACHINE, tmp_path) == "each step is right\n"


@pytest.mark.needs("cc")
@pytest.mark.parametrize("old, new, said", OTHER_CLOCKS)
def test_other_clocks(old, new, said, tmp_path):
    assert clock(edited(MACHINE, [(old, new)]), tmp_path) == f"{said}\n"


CLOCK_PAGE = "docs/CLOCK.md"
CLOCK_PARTS = ["struct machine {", "take_moment(struct", "memory_read"]
# Edits of the code of docs/CLOCK.md that only this page has, and the step of clock_alone.c that goes wrong.
OTHER_CLOCKS_ALONE = at_least(2, [
    ("machine->ahead = seconds(CLOCK_REALTIME) - seconds(CLOCK_BOOTTIME);", "machine->ahead = 0;",
     "a moment is the time of day"),
    ("timerfd_create(CLOCK_BOOTTIME, TFD_NONBLOCK)", "timerfd_create(CLOCK_REALTIME, TFD_NONBLOCK)", "an alarm is set"),
])


def clock_alone(folder, *edits):
    """What clock_alone.c says of the code of docs/CLOCK.md, of which nothing else of machine.c is there."""
    page = "\n".join(code(CLOCK_PAGE, "c", of) for of in CLOCK_PARTS)
    program = edited((ROOT / "tests/documents/clock_alone.c").read_text(encoding="utf-8"), [
        ("PAGE\n\n", page), ("OPENED\n", code(CLOCK_PAGE, "c", "timerfd_create"))])
    compile_c(folder, "clock", edited(program, edits), LIBRARY, "-pthread", "-o", "clock")
    return run([folder / "clock"]).stdout


@pytest.mark.needs("cc")
def test_clock_alone(tmp_path):
    """The struct around the clock is all that the functions of the page need. It is as in machine.c."""
    assert clock_alone(tmp_path) == "each step is right\n"
    block = code(CLOCK_PAGE, "c", CLOCK_PARTS[0])
    fields = re.findall(r"^    (?!pthread)[^;]+;.*\n", block, re.M)
    for part in at_least(8, [*fields, *re.findall(r"[A-Z]+ = 0x\w+", block)]):
        assert part in MACHINE, part


@pytest.mark.needs("cc")
@pytest.mark.parametrize("old, new, said", OTHER_CLOCKS_ALONE)
def test_other_clocks_alone(old, new, said, tmp_path):
    assert clock_alone(tmp_path, (old, new)) == f"{said}\n"


def machine_that_follows():
    """machine.c with the edits of docs/CLOCK.md for guest time that follows the host's clock."""
    named = CODE.findall(Document(CLOCK_PAGE).prose)
    [timer], [restored] = ({text for text in named if of in text}
                           for of in ("timerfd_create(CLOCK_REALTIME", "= saved->now;"))
    [step] = re.findall(r"^ {8}/\* step 4 \*/\n(.*\n.*\n) {8}/\* step 5 \*/$", MACHINE, re.M)
    return edited(MACHINE, [
        ("    machine->now = (uint64_t)(seconds(CLOCK_BOOTTIME) + machine->ahead);\n",
         code(CLOCK_PAGE, "c", "uint64_t host")),
        ("timerfd_create(CLOCK_BOOTTIME, TFD_NONBLOCK)", timer), (step, f"        {restored}\n"),
        ("    machine->ahead = seconds(CLOCK_REALTIME) - seconds(CLOCK_BOOTTIME);\n", "")])


# Edits of that machine, and the first step of clock_follows.c that goes wrong.
OTHER_CLOCKS_THAT_FOLLOW = at_least(4, [
    ("    if (host > machine->now)\n    ", "", "the host's clock is set back"),
    ("if (host > machine->now)", "if (machine->now == 0)", "the host's clock is set forward"),
    ("timerfd_create(CLOCK_REALTIME", "timerfd_create(CLOCK_BOOTTIME", "the timer is of the host's clock"),
    ("        machine->now = saved->now;\n", "", "a machine is restored whose time is ahead"),
])


def clock_that_follows(folder, *edits):
    """What clock_follows.c says of the machine."""
    program = (ROOT / "tests/documents/clock_follows.c").read_text(encoding="utf-8")
    machine = edited(machine_that_follows(), [WITHOUT_MAIN, *edits])
    compile_c(folder, "clock", edited(program, [("MACHINE\n\n", machine)]), LIBRARY, "-pthread", "-o", "clock")
    return run([folder / "clock"]).stdout


@pytest.mark.needs("cc")
def test_clock_that_follows(tmp_path):
    """Moments follow the host's clock, and never go back, even if it does."""
    assert clock_that_follows(tmp_path) == "each step is right\n"


@pytest.mark.needs("cc")
@pytest.mark.parametrize("old, new, said", OTHER_CLOCKS_THAT_FOLLOW)
def test_other_clocks_that_follow(old, new, said, tmp_path):
    assert clock_that_follows(tmp_path, (old, new)) == f"{said}\n"


# The handler of KVM's exits, with the lines for a serial port in memory.
FIRST_OF_MEMORY = "    } else if (run->exit_reason == KVM_EXIT_MMIO && run->mmio.is_write) {\n"
HANDLER = code("docs/C.md", "c", "serve_exit").replace(FIRST_OF_MEMORY, code("docs/C.md", "c", "STRIDE") + FIRST_OF_MEMORY)
# Edits of this handler, and the first step of exits.c that goes wrong.
OTHER_EXITS = at_least(18, [
    ("i % run->io.size", "i", "two bytes are written twice"),
    ("i % run->io.size", "0", "two bytes are written"),
    ("run->io.count * run->io.size", "run->io.count", "two bytes are written"),
    ("run->io.count * run->io.size", "run->io.size", "two bytes are written twice"),
    ("run->io.count * run->io.size", "run->io.count * run->io.size + 1", "two bytes are written"),
    ("== KVM_EXIT_IO_OUT", "!= KVM_EXIT_IO_OUT", "two bytes are written"),
    (" + run->io.data_offset;", ";", "two bytes are written"),
    ("bytes[i] = port_read", "bytes[0] = port_read", "two bytes are read"),
    ("&& run->mmio.is_write", "&& !run->mmio.is_write", "a word is written"),
    ("if (run->mmio.is_write)", "if (!run->mmio.is_write)", "a register is written"),
    ("- SERIAL) / STRIDE);", "- SERIAL));", "a register is written"),
    ("- SERIAL) / STRIDE);", "- SERIAL) / STRIDE + 1);", "a register is written"),
    ("write_access(machine, offset, run->mmio.data[0]);",
     "for (uint8_t i = 0; i < run->mmio.len; i++) write_access(machine, (uint8_t)(offset + i), run->mmio.data[i]);",
     "a register is written"),
    ("(uint8_t[8]){read_access(machine, offset)}, 8);", "(uint8_t[8]){read_access(machine, offset)}, 1);",
     "a register is read"),
    (" < SUPERIO_SERIAL_PORTS * STRIDE", " - 1 < SUPERIO_SERIAL_PORTS * STRIDE - 1", "the first register is read"),
    (" < SUPERIO_SERIAL_PORTS * STRIDE", " + 1 < SUPERIO_SERIAL_PORTS * STRIDE + 1", "no register is read"),
    (" < SUPERIO_SERIAL_PORTS * STRIDE", " <= SUPERIO_SERIAL_PORTS * STRIDE", "no register is read"),
    ("return true;", "access_served(machine); return true;", "a reset is left to the caller"),
    ("return true;", "return false;", "an access of ports is served"),
    ("return false;", "return true;", "another exit is left to the caller"),
])


def exits(handler, folder):
    """What exits.c says of a handler of exits."""
    program = (ROOT / "tests/documents/exits.c").read_text(encoding="utf-8")
    machine = edited(MACHINE, [WITHOUT_MAIN])
    compile_c(folder, "exits", edited(program, [("MACHINE\n\n", machine), ("HANDLER\n\n", handler)]), LIBRARY,
              "-pthread", "-o", "exits")
    return run([folder / "exits"]).stdout


@pytest.mark.needs("cc")
@pytest.mark.parametrize("handler, said", [(code("docs/C.md", "c", "serve_exit"), "a register is written"),
                                           (HANDLER, "each step is right")], ids=["ports", "memory"])
def test_exits(handler, said, tmp_path):
    """Each byte of an access reaches its port, and the guest gets what the devices return. Without the lines for a serial
    port in memory, only this port is not there."""
    assert exits(handler, tmp_path) == f"{said}\n"


@pytest.mark.needs("cc")
@pytest.mark.parametrize("old, new, said", OTHER_EXITS)
def test_other_exits(old, new, said, tmp_path):
    assert exits(edited(HANDLER, [(old, new)]), tmp_path) == f"{said}\n"


@pytest.mark.parametrize("document, of", at_least(5, [
    ("docs/C.md", "static void port_write"), *(("docs/CLOCK.md", of) for of in ("take_moment(struct", "files[3]", "memory_read")),
    ("docs/SNAPSHOTS.md", "static void save(")]))
def test_code_of_the_machine(document, of):
    """The pages show machine.c as it stands: each part of a block between two empty lines is in it."""
    for part in code(document, "c", of).strip("\n").split("\n\n"):
        assert f"\n{part}\n" in MACHINE, part


@pytest.mark.needs("cc")
def test_commands(tmp_path):
    """As the page says, in a folder that has what the repository's top has. The page shows the program from below the
    line with its license, to where the guest begins."""
    _, shown = CONSOLE.split("\n", 1)
    assert shown.startswith(code("docs/C.md", "c", "static void event_loop") + "\n/* ---- What follows stands in ")
    for name in ["bindings", "examples", "prebuilt", "rust"]:
        (tmp_path / name).symlink_to(ROOT / name)
    commands = [command for block in Document("docs/C.md").blocks for command in block.commands]
    for command, printed in at_least(4, commands):
        check(["bash", "-c", command], printed, cwd=tmp_path)


@pytest.mark.needs("cc")
@pytest.mark.parametrize("line", ["edges", "levels"])
def test_bare_port(line, tmp_path):
    """The functions of the page around a guest, with what it says of a line for either."""
    functions = code("docs/PORT.md", "c", "write_access")
    if line == "levels":
        level = code("docs/PORT.md", "c", "set_line")
        functions, count = INTERRUPT.subn(f"void set_line(bool is_up);\n{level}", functions)
        assert count == 1
    functions += SET_POLLED + LEVEL + RESTORE.format(STEPS[line])
    compile_c(tmp_path, "port", functions, ROOT / "tests/documents/bare_port.c", LIBRARY, "-o", "port")
    check(["./port"], "all came back\n", cwd=tmp_path)


@pytest.fixture(scope="module")
def built(tmp_path_factory):
    """An environment in which Cargo compiles the crates once for all programs, and writes nothing for a debugger or for
    another build of the same program."""
    return {**os.environ, "CARGO_TARGET_DIR": str(tmp_path_factory.mktemp("target")), "CARGO_PROFILE_DEV_DEBUG": "0",
            "CARGO_INCREMENTAL": "0"}


def run_rust(program, printed, typed, built, folder, page="docs/RUST.md"):
    """Runs a program by the lines for Cargo.toml of a page. The `Machine` of docs/PORT.md is around a guest."""
    (folder / "src").mkdir()
    manifest = code(page, "toml", "rust/superio" if "use superio::" in program else "rust/vm-superio")
    manifest = manifest if "[dependencies]" in manifest else USER + manifest
    words = FROM_DEBIAN if "libc::" in program else []
    manifest += LIBC if words else ""
    (folder / "Cargo.toml").write_text(PACKAGE + manifest.replace("CLONE", str(ROOT)), encoding="utf-8")
    if "fn main" not in program:
        (folder / "src" / "lib.rs").write_text(program, encoding="utf-8")
        program = (ROOT / "tests/documents/bare_serial.rs").read_text(encoding="utf-8")
    (folder / "src" / "main.rs").write_text(program, encoding="utf-8")
    check(["cargo", "run", "--quiet", "--offline", *words], printed, cwd=folder, env=built, input=typed)


@pytest.mark.needs("cargo")
@pytest.mark.parametrize("document, of, printed", [
    ("README.md", "Console", HI), ("docs/PORT.md", "Cell", "h"), ("docs/PORT.md", "from_snapshot", "h"),
    ("docs/PORT.md", "L: Trigger", "all came back\n"), ("docs/RUST.md", "is_reset_command", BUS)])
def test_rust(document, of, printed, built, tmp_path):
    """README.md has lines for Cargo.toml too. Those for vm-superio serve a program of docs/PORT.md."""
    page = "README.md" if of in ("Console", "Cell") else "docs/RUST.md"
    run_rust(code(document, "rust", of), printed, "", built, tmp_path, page)


def rust_program_for(line):
    """The program of docs/RUST.md, with the function for a line of levels, or the lines for a loader that polls."""
    program, edits = code("docs/RUST.md", "rust", MONITOR), []
    if line == "levels":
        [carried_out] = CARRY_OUT.findall(program)
        edits = [(carried_out, code("docs/RUST.md", "rust", "was_up.swap") + SET_LINE_IN_RUST), *LEVEL_FIELD]
    elif line == "a loader that polls":
        edits = [(END_OF_WRITE_IN_RUST, END_OF_WRITE_IN_RUST + code("docs/RUST.md", "rust", "set_polled"))]
    return edited(program, edits)


def edited(program, edits):
    for old, new in edits:
        assert program.count(old) == 1
        program = program.replace(old, new)
    return program


@pytest.mark.needs("cargo", "libc")
def test_event_loop_in_rust(built, tmp_path):
    """The page names what its monitor takes from others. More input comes back than all queues hold, through pipes that
    are often full, and the files are left as they were."""
    assert f"`{LIBC.strip()}`" in Document("docs/RUST.md").text
    run_rust(code("docs/RUST.md", "rust", MONITOR), "HELLO\n", "hello\n", built, tmp_path)
    program = f"{built['CARGO_TARGET_DIR']}/debug/hi"
    text = "the quick brown fox " * 10_000 + "\n"
    check(["sh", "-c", f"{program} | (sleep 0.2; cat)"], text.upper(), input=text)
    check_files_stay(program)


@pytest.mark.needs("cargo", "libc")
def test_pauses_in_rust(built, tmp_path):
    """As in C, all of the guest's output is written before the event loop ends."""
    program, count = with_pauses(code("docs/RUST.md", "rust", MONITOR), "rust")
    with_place = {**built, "PLACE": "-"}
    run_rust(program, "HELLO\n", "hello\n", with_place, tmp_path)
    printed = printed_with_pauses(f"{built['CARGO_TARGET_DIR']}/debug/hi", count)
    assert printed == dict.fromkeys(printed, "HELLO\n")


@pytest.mark.needs("cargo", "libc")
def test_levels_in_rust(built, tmp_path):
    """A text of several refills of the FIFO comes back."""
    text = "the quick brown fox " * 100 + "\n"
    run_rust(rust_program_for("levels"), text.upper(), text, built, tmp_path)


def without_main(program):
    return edited(program, [("\nfn main", "\n#[allow(dead_code)]\nfn main_of_the_page")])


@pytest.mark.needs("cargo", "libc")
def test_rules_of_the_whole_monitor(built, tmp_path):
    """The monitor of docs/RUST.md, with a guest and files at the worst moments in place of its `main`."""
    rules = (ROOT / "tests/documents/monitor_rules.rs").read_text("utf-8")
    program, count = IS_STUCK.subn(LOCKED, without_main(rust_program_for("edges")))
    assert count == 2
    run_rust(program + rules, "each rule is kept\n", "", built, tmp_path)


@pytest.mark.needs("cargo")
def test_rules_of_a_turn(built, tmp_path):
    """The turn in the README of rust/superio, around a guest and files that take and give something else each time."""
    functions, _ = code("rust/superio/README.md", "rust", "fn make_turn").split("\nlet mut console")
    program = edited(functions, [('println!("{work:?}");', "let _ = work;")])
    rules = (ROOT / "tests/documents/turn_rules.rs").read_text("utf-8")
    run_rust(program + rules, "each rule is kept\n", "", built, tmp_path)


@pytest.mark.needs("cargo")
def test_rules_of_a_bus(built, tmp_path):
    """The bus of docs/RUST.md, with each access at each place in place of its `main`."""
    program = edited(without_main(code("docs/RUST.md", "rust", "is_reset_command")), [
        ('println!("{work:?}");', "DONE.lock().unwrap().push(work);"),
        ("let is_up = self.clock.interrupt_line();", "FOLLOWED.fetch_add(1, Relaxed);\nlet is_up = self.clock.interrupt_line();"),
        ('println!("the clock\'s line: {is_up}");', "LINE.store(is_up, Relaxed);"),
        ('println!("the timer goes off at {}", self.now + due)', "TIMER.store(self.now + due, Relaxed)"),
        ('println!("the timer is stopped")', "TIMER.store(u64::MAX, Relaxed)")])
    rules = (ROOT / "tests/documents/bus_rules.rs").read_text("utf-8")
    run_rust(program + rules, "each rule is kept\n", "", built, tmp_path)


@pytest.mark.needs("cargo", "libc")
@pytest.mark.parametrize("line", ["edges", "levels", "a loader that polls"])
def test_accesses_in_rust(line, built, tmp_path):
    """As in C: each reaches the console once, and its work is carried out, whatever the line refuses."""
    program, is_level = without_main(rust_program_for(line)), line == "levels"
    made = MADE_IN_RUST.format(*(str(flag).lower() for flag in (is_level, line == "a loader that polls")))
    if is_level:
        program = edited(program, [(SET_LINE_IN_RUST, SET_BOTH_IN_RUST)])
        made = edited(made, LEVEL_FIELD[1:])
    program += made + (ROOT / "tests/documents/accesses.rs").read_text("utf-8")
    run_rust(program, "each access is right\n", "", built, tmp_path)


@pytest.mark.needs("cargo", "libc")
def test_loader_that_polls_in_rust(built, tmp_path):
    """As in C: with the lines for a kernel that does not poll, no input goes in between its driver's probe and its being
    ready."""
    program = edited(rust_program_for("a loader that polls"), [(READY_IN_RUST, PROBE_IN_RUST + READY_IN_RUST),
                                                               ("Console::new(false)", "Console::new(true)")])
    run_rust(program, "HELLO\n", "hello\n", built, tmp_path)
