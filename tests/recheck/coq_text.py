# SPDX-License-Identifier: Apache-2.0 OR BSD-3-Clause
"""Files of Coq as one text, in which all that is translated can be computed."""
import re
from pathlib import Path

RECHECK = Path(__file__).resolve().parents[2] / "recheck"


def together(*files):
    """These files one after the other, for a usize of 64 bits, as this machine's rustc has it."""
    text = "\n".join(file.read_text(encoding="utf-8") for file in files)
    unsealed, count = re.subn(r"(Definition width_of_usize : .* exists 64\. .*)Qed\.", r"\1Defined.", text)
    assert count == 1
    return re.sub(r"^Require (?:Import|Export) Recheck\..*\n", "", unsealed, flags=re.M)


def words(*names):
    """The words that translations use."""
    return together(*(RECHECK / f"{name}.v" for name in names))
