# SPDX-License-Identifier: Apache-2.0 OR BSD-3-Clause
"""The tools that tests need, what is built for them once, and that no test passes without having run.

A test says what it needs: `@pytest.mark.needs("cargo")`. If the tool is missing the test fails, with the package of
Debian 12 to install. Only --without leaves tests out. What no package of Debian has, such as KVM, is marked
`@pytest.mark.where("kvm")`: such a test runs where that is there. Any other skip, and any expected failure, fails. The
last lines name all that was not tried, and why.
"""
import os
import platform
import random
import time
from collections import Counter
from pathlib import Path

import kept
import pytest
import sums
from common.requirements import TOOLS, advice
from common.seed import VARIABLE, seed
from harness import ROOT, check
from hypothesis import HealthCheck, settings
from places import is_place

LEFT_OUT = pytest.StashKey()   # of a test that --without leaves out
TAKEN = kept.taken   # the proofs of earlier runs that were enough, until a report names them
# The files that take longest, also because they wait. They begin first, so that no worker is left with one of them at
# the end.
DEAREST = ["tests/rust/test_crates.py", "tests/packages/test_releases.py", "tests/c/test_programs.py",
           "tests/tools/test_mutants.py", "tests/tools/test_changes.py", "tests/documents/test_whole_programs.py",
           "tests/page/test_page.py", "tests/python/test_installation.py", "tests/js/test_package.py",
           "tests/documents/test_paste.py", "tests/recheck/test_proofs.py", "tests/kvm/test_monitor.py",
           "tests/guests/test_verifier.py", "tests/guests/test_linux_driver.py", "tests/guests/test_clock.py",
           "tests/tools/test_comparing.py", "tests/costs/test_counts.py", "tests/tools/test_check.py",
           "tests/guests/test_polling.py", "tests/c/test_examples_of_c.py", "tests/devices/test_calls.py",
           "tests/recheck/test_whole.py", "tests/guests/test_xen.py", "tests/packages/test_installation_of_c.py",
           "tests/tools/test_rules.py", "tests/python/test_traces.py", "bindings/python/tests/test_commandline.py",
           "tests/python/test_boards.py", "tests/devices/test_random.py", "tests/recheck/test_broken_rules.py",
           "tests/python/test_recorded_calls.py", "tests/recheck/test_statements.py", "tests/kvm/test_images.py",
           "tests/tools/test_statuses.py"]

os.environ.setdefault("HYPOTHESIS_STORAGE_DIRECTORY", str(ROOT / "out" / "hypothesis"))
# Each date that a program of ours tells is of UTC. So tests run where local time is another.
os.environ["TZ"] = "Asia/Kathmandu"
time.tzset()
common = {"deadline": None, "database": None, "suppress_health_check": list(HealthCheck), "print_blob": True}
settings.register_profile("quick", max_examples=50, **common)
settings.register_profile("thorough", max_examples=3000, **common)
settings.load_profile(os.environ.get("HYPOTHESIS_PROFILE", "quick"))


def pytest_addoption(parser):
    parser.addoption("--without", default="", metavar="TOOL,..",
                     help=f"leave out the tests that need one of these: {', '.join(TOOLS)}")
    parser.addoption("--write-pictures", action="store_true", help="write the pictures of the page anew")
    parser.addoption("--again", action="store_true", help="make also the proofs that an earlier run made")
    parser.addoption("--boot", action="store_true", help="boot Linux, also if it has passed with these sources")
    parser.addoption("--write-record", action="store_true", help="write tests/kvm/linux.record if Linux passes")
    parser.addoption("--sums", action="store_true", help="fail if fewer tests are tried than tests/sums.txt says")
    parser.addoption("--write-sums", action="store_true", help="write tests/sums.txt, with --collect-only")
    parser.addoption("--program", type=Path, help="a program in place of crates/superio/out/superio")


def left_out(config):
    return set(filter(None, config.getoption("--without").split(",")))


def needed(item):
    return {tool for mark in item.iter_markers("needs") for tool in mark.args}


def places_of(item):
    return sorted({place for mark in item.iter_markers("where") for place in mark.args})


@pytest.hookimpl(optionalhook=True)
def pytest_xdist_setupnodes():
    """Workers have to find the same names of tests. Some are of a set, whose order is a process's own."""
    os.environ["PYTHONHASHSEED"] = str(random.randrange(2 ** 32))


@pytest.hookimpl(tryfirst=True)
def pytest_configure(config):
    kept.again = config.getoption("--again")
    if hasattr(config, "workerinput"):   # what a worker runs has an order of its own again
        del os.environ["PYTHONHASHSEED"]
    if config.getoption("--hypothesis-seed") is None:   # which hypothesis reads after this
        config.option.hypothesis_seed = seed()
    if unknown := left_out(config) - set(TOOLS):
        raise pytest.UsageError(f"--without: there is no tool {', '.join(sorted(unknown))}")
    if time.localtime(0).tm_gmtoff != 19_800:
        raise pytest.UsageError(f"there is no zone {os.environ['TZ']}, in which local time is not UTC: install tzdata")


def pytest_collection_modifyitems(items):
    for item in items:   # which its report has, too
        item.user_properties.append(("places", places_of(item)))
    rank = {name: number for number, name in enumerate(DEAREST)}
    items.sort(key=lambda item: rank.get(item.nodeid.partition("::")[0], len(rank)))


def pytest_collection_finish(session):
    if session.config.getoption("--write-sums") and not session.testsfailed:   # each file was read
        sums.write((item.nodeid, places_of(item)) for item in session.items)


def faults_of_sums(config):
    """What a run tried less, or left out more, than tests/sums.txt says."""
    stats = config.pluginmanager.get_plugin("terminalreporter").stats
    reports = {report.nodeid: report for kind in ("passed", "failed", "error", "skipped")
               for report in stats.get(kind, ()) if "::" in report.nodeid}
    places = {name: dict(report.user_properties).get("places", ()) if report.skipped else ()
              for name, report in reports.items()}
    return list(sums.faults((name, [place for place in found if not is_place(place)])
                            for name, found in places.items()))


@pytest.hookimpl(trylast=True)
def pytest_sessionfinish(session):
    config = session.config
    if config.getoption("--sums") and not hasattr(config, "workerinput") and faults_of_sums(config):
        session.exitstatus = pytest.ExitCode.TESTS_FAILED


def skip(item, reason):
    """Leaves a test out, which no other way of skipping does."""
    item.stash[LEFT_OUT] = True
    pytest.skip(reason)


def pytest_runtest_setup(item):
    """Fails a test whose tool is missing. What --without names is skipped, also if it is there."""
    if tools := sorted(needed(item) & left_out(item.config)):
        skip(item, f"--without names {', '.join(tools)}")
    for tool in sorted(needed(item)):
        is_given = tool == "kit" and item.config.getoption("--program")
        if lines := [] if is_given else advice(tool, f", or run with --without {tool}"):
            pytest.fail("\n".join(lines), pytrace=False)
    if places := [place for place in places_of(item) if not is_place(place)]:
        skip(item, f"there is no {', '.join(places)}")


@pytest.hookimpl(hookwrapper=True)
def pytest_runtest_makereport(item):
    """A test that is skipped otherwise, or that is expected to fail, has failed: nobody asked for it."""
    report = (yield).get_result()
    if report.skipped and LEFT_OUT not in item.stash:
        report.outcome, report.longrepr = "failed", f"skipped itself: {report.longrepr}"
        vars(report).pop("wasxfail", None)   # with which pytest ends with status 0
    report.user_properties.extend(("kept", name) for name in TAKEN)
    TAKEN.clear()


@pytest.hookimpl(hookwrapper=True)
def pytest_make_collect_report(collector):
    """So has a file that is skipped whole, as by `importorskip`."""
    report = (yield).get_result()
    if report.skipped:
        report.outcome, report.longrepr = "failed", f"{collector.nodeid} skipped itself: {report.longrepr}"


def pytest_terminal_summary(terminalreporter, config):
    for line in faults_of_sums(config) if config.getoption("--sums") else ():
        terminalreporter.write_line(line)
    skipped = terminalreporter.stats.get("skipped", ())
    reasons = Counter(report.longrepr[2].removeprefix("Skipped: ") for report in skipped)
    for reason, number in sorted(reasons.items()):
        terminalreporter.write_line(f"NOT TRIED: {number} tests, since {reason}")
    reports = [report for reports in terminalreporter.stats.values() for report in reports]
    if taken := {value for report in reports for name, value in getattr(report, "user_properties", ()) if name == "kept"}:
        terminalreporter.write_line(f"NOT PROVED AGAIN, without --again: {len(taken)} proofs that an earlier run made of "
                                    "the same files")
    if {"failed", "error"} & {*terminalreporter.stats}:
        terminalreporter.write_line(f"What was random began at {VARIABLE}={seed()}, with which it is the same again")


@pytest.fixture(scope="session")
def program(request):
    """The proved program, which is proved and built if it is missing or older than its sources."""
    from common.rattle import built_program
    given = request.config.getoption("--program")
    return given.resolve() if given else built_program()


@pytest.fixture(scope="session")
def prebuilt_library():
    """The shared library of prebuilt for this processor, by ctypes."""
    import abi
    from generators.libraries import SHARED
    return abi.load(ROOT / "prebuilt" / f"{platform.machine()}-linux" / SHARED)


@pytest.fixture(scope="session")
def source_library(tmp_path_factory):
    """The same library as Cargo makes it of bindings/c/from-source."""
    import abi
    folder = tmp_path_factory.mktemp("from-source")
    check(["cargo", "rustc", "--crate-type", "cdylib", "--release", "--quiet", "--offline", "--manifest-path",
           ROOT / "bindings/c/from-source/Cargo.toml", "--target-dir", folder])
    return abi.load(folder / "release" / "libsuperio_c.so")
