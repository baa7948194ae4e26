# SPDX-License-Identifier: Apache-2.0 OR BSD-3-Clause
"""What the models take from interface.toml: the registers of the port and of the clock, and what is saved of them."""
import re

from common.facts import CLOCK, IDENTIFICATION, PORT_FIELDS, PORT_REGISTERS, SERIAL

# The names of the port's registers by offset, with DLAB clear and with DLAB set. A read shows them.
READ = {(register["offset"], register.get("dlab", state)): register["name"] for register in SERIAL["registers"]
        if "read" in register for state in ("clear", "set")}
BY_OFFSET = [[READ[offset, state] for offset in range(len(READ) // 2)] for state in ("clear", "set")]
# Those that keep what is written, whole.
KEPT = {register["name"] for register in SERIAL["registers"]
        if "write" in register and register["write"] == register.get("read")}
# The registers of a new port, in the order of a saved state.
FRESH = {name: field["fresh"] for name, field in PORT_FIELDS.items()}

IER, IIR, LSR, MCR, MSR = (PORT_REGISTERS[name]["bits"] for name in ("IER", "IIR", "LSR", "MCR", "MSR"))
# The bits of registers that are facts of their own: the two conditions, that none is pending, and data ready.
BITS = {"IIR": {"RDA": IIR["RDA"], "THRE": IIR["THRE"], "NONE": FRESH["IIR"]}, "LSR": {"READY": LSR["DR"]}}
ENABLED_BY = {condition: IER[condition] for condition in ("RDA", "THRE")}
IER_MASK = sum(IER.values())   # the bits that IER keeps
# The outputs of MCR, each with the input of MSR that shows it in loopback.
LOOPED = {MCR[output]: MSR[shown] for output, shown in SERIAL["loopback"].items()}

# The clock's registers by offset.
CLOCK_AT = {register["offset"]: register["name"] for register in CLOCK["registers"]}
READ_ONLY = {register["name"] for register in CLOCK["registers"] if "write" not in register}
# Those that always show one number.
CONSTANTS = {register["name"]: int(register["read"], 0) for register in CLOCK["registers"]
             if re.fullmatch(r"\d+|0x\w+", register.get("read", ""))}
# The fields of a clock, in their order, each with the format of its number, as struct has it.
CLOCK_FIELDS = {field.get("register", field["name"]): {"bool": "b", "u32": "I", "i64": "q"}[field["type"]]
                for field in CLOCK["fields"]}
# What a read shows at each offset of the identification.
ID_FIRST = CLOCK["identification"]["first"]
ID_AT = {ID_FIRST + place: IDENTIFICATION[place // 4] for place in range(4 * len(IDENTIFICATION))}
