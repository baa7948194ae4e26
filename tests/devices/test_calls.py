# SPDX-License-Identifier: Apache-2.0 OR BSD-3-Clause
"""Recorded calls, which tests/README.md describes, over the Rust crate and over both models.

The files of tests/data/calls have what the Rust crate vm-superio did, or what was worked out by hand, so nothing needs
that crate. Rust makes further calls: those of tests/c/shared.txt and tests/compare/panics.txt, every answer in every
state, loads of any bytes, and random calls, others with each commit. These have to do what the search of the past says.
tests/c, tests/js and tests/python make recorded calls, too.
"""
from functools import cache

import model
import oracle
import pytest
from board import Board
from common.comparison import COMPARISON, Comparison
from harness import ROOT, at_least
from made import every_load, fewest
from recorded import (RECORDINGS, Recorder, difference, every_answer, random_recorded, recording_of, recordings,
                      rows_of)
from script import line_of, replies_of
from seeds import seeds

FURTHER = ROOT / "tests/c/shared.txt", COMPARISON / "panics.txt"
RUNS = 1_025   # of 40 calls each


@cache
def recorded():
    """The rows of each recording, and of the files of FURTHER."""
    return {name: rows_of(text) for name, text in [*recordings().items(), *recordings(*FURTHER).items()]}


@cache
def answers():
    """Every answer in every state, as rows with what the search of the past says."""
    return rows_of(recording_of(every_answer()))


@cache
def loads():
    """Loads of any bytes, with the replies that the search of the past gives."""
    calls = [*every_load()]
    return calls, replies_of(Board(oracle), calls)


@cache
def random_runs():
    return random_recorded(seeds("Rust", RUNS))


def test_number_of_calls():
    assert sum(len(recorded()[name]) for name in RECORDINGS) >= 211_850
    assert sum(len(recorded()[path.name]) for path in FURTHER) >= 150
    at_least(39_552, answers())
    at_least(62_000, loads()[0])


@pytest.mark.parametrize("devices", [oracle, model], ids=lambda module: module.__name__)
@pytest.mark.parametrize("name", at_least(3, RECORDINGS))
def test_models(name, devices):
    recorder, rows = Recorder(devices), recorded()[name]
    assert not difference(rows, [recorder.make(call) for call, _ in rows])


def test_models_agree():
    """Both models do the same in every answer, in loads and in random calls."""
    runs = [rows_of(recording_of(calls)) for calls in random_runs()]
    for rows in [answers(), *runs]:
        recorder = Recorder(model)
        assert not difference(rows, [recorder.make(call) for call, _ in rows])
    calls, replies = loads()
    assert replies == replies_of(Board(model), calls)


@pytest.fixture(scope="module")
def rust(tmp_path_factory):
    """The program that makes calls over rust/vm-superio. Gives a function that makes calls, and returns what each did."""
    comparison = Comparison(tmp_path_factory.mktemp("rust"))
    built = comparison.build()
    assert built.returncode == 0, built.stdout
    return lambda calls: [line.partition(" = ")[2] for line in comparison.make(calls)]


@pytest.mark.needs("cargo", "cc")
@pytest.mark.parametrize("name", [*RECORDINGS, *(path.name for path in FURTHER)])
def test_rust(rust, name):
    rows = recorded()[name]
    assert not difference(rows, rust([call for call, _ in rows]))


@pytest.mark.needs("cargo", "cc")
def test_every_answer_in_rust(rust):
    assert not difference(answers(), rust([call for call, _ in answers()]))


@pytest.mark.needs("cargo", "cc")
def test_every_load_in_rust(rust):
    calls, replies = loads()
    rows = list(zip([line_of(*call) for call in calls], replies))
    assert not difference(rows, rust([call for call, _ in rows]))


@pytest.mark.needs("cargo", "cc")
def test_random_calls_in_rust(rust):
    """A failure shows the fewest calls of a run that differ from new devices on, or else the run."""
    runs, recorder = random_runs(), Recorder()
    made = iter(rust([call for calls in runs for call in calls]))
    for calls in runs:
        rows = rows_of(recording_of(calls, recorder))   # a run goes on with the devices of the run before
        if found := difference(rows, [next(made, "no call") for _ in calls]):
            few = fewest(calls, lambda fewer: difference(rows_of(recording_of(fewer)), rust(fewer)))
            pytest.fail(difference(rows_of(recording_of(few)), rust(few)) or found, pytrace=False)
