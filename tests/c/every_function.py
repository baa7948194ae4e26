# SPDX-License-Identifier: Apache-2.0 OR BSD-3-Clause
"""For every_function.c: the callers in C of each function of superio.h, and calls with what they did through ctypes."""
import ctypes

from abi import FUNCTIONS, STRUCTS
from generators.header import BYTES, read_header
from harness import at_least
from random_calls import Place, random_calls, value_of

HEADER = read_header()
CALLER = """static void call_{name}(void) {{
    {lines}
}}
"""
TABLE = "static const struct {{\n    const char *name;\n    void (*make_call)(void);\n}} CALLERS[] = {{\n{rows}}};\n"


def taken(kind):
    """The words of C that take a number of this type."""
    return "take_size()" if kind == "size_t" else f"({kind})take({BYTES[kind]})"


def fields_of(struct, number, other):
    """A line of C for each field of a struct, in the order of superio.abi. `number` gives it for the type and the name
    of a number, and `other` for a field of bytes or a struct."""
    declared = {field.name: field for field in HEADER.structs[struct]}
    for name, _ in STRUCTS[struct]._fields_:
        kind, _, length = declared[name]
        if kind in HEADER.structs or length and kind == "uint8_t":
            yield other("bytes" if length else kind, name, bool(length))
        elif length:
            yield f"for (int i = 0; i < {length}; i++) {number(kind, f'{name}[i]')}"
        else:
            yield number(kind, name)


def of_struct(struct):
    """Functions that take the fields of a struct, and give them."""
    takes = fields_of(struct, lambda kind, name: f"one->{name} = {taken(kind)};",
                      lambda kind, name, is_array: f"take_bytes(one->{name}, sizeof one->{name});" if is_array else
                      f"take_{kind}(&one->{name});")
    gives = fields_of(struct, lambda kind, name: f"give((uint64_t)one->{name}, {BYTES[kind]});",
                      lambda kind, name, is_array: f"give_bytes(one->{name}, sizeof one->{name});" if is_array else
                      f"give_{kind}(&one->{name});")
    for verb, const, lines in (("take", "", takes), ("give", "const ", gives)):
        yield f"static inline void {verb}_{struct}({const}{struct} *one) {{\n    " + "\n    ".join(lines) + "\n}\n"


def lines_of_caller(name, function):
    """The lines of C that take the arguments of a call, make it, and give what it did."""
    parameters, gives = function.parameters, []
    for place, (kind, word, length) in enumerate(parameters):
        struct = kind.replace("const ", "").strip(" *")
        if struct in HEADER.structs:
            yield f"{struct} *{word} = ({struct} *)place({place}, sizeof *{word});"
            yield f"take_{struct}({word});"
            gives.append(f"give_{struct}({word});")
        elif kind.endswith("*") or length:
            yield f"size_t {word}_length = take_size();"
            yield f"uint8_t *{word} = bytes_at({place}, {word}_length);"
            gives.append(f"give_bytes({word} ? {word} : output, {word}_length);")
        else:
            yield f"{kind} {word} = {taken(kind)};"
    call = f"{name}({', '.join(parameter.name for parameter in parameters)});"
    yield "if (!fits)\n        return;"
    yield call if function.returned == "void" else f"{function.returned} result = {call}"
    if function.returned in HEADER.structs:
        yield f"give_{function.returned}(&result);"
    elif function.returned != "void":
        yield f"give((uint64_t)result, {BYTES[function.returned]});"
    yield from gives


def functions_in_c():
    """The text of functions.h: for each struct, in the header's order, and then the callers, in that of FUNCTIONS."""
    names = at_least(37, [function.name for function in FUNCTIONS])
    assert {*names} == {*HEADER.functions}
    callers = (CALLER.format(name=name, lines="\n    ".join(lines_of_caller(name, HEADER.functions[name])))
               for name in names)
    rows = "".join(f'    {{"{name}", call_{name}}},\n' for name in names)
    structs = (text for struct in HEADER.structs for text in of_struct(struct))
    return "\n".join([*structs, *callers, TABLE.format(rows=rows)])


def encoded(kind, value):
    """A value of a type, field by field, the lowest byte of each number first."""
    if issubclass(kind, ctypes.Structure):
        return b"".join(encoded(field, inner) for (_, field), inner in zip(kind._fields_, value))
    return value if isinstance(value, bytes) else int(value).to_bytes(ctypes.sizeof(kind), "little", signed=value < 0)


def encoded_place(parameter, content):
    """What a pointer leads to, by its fields. Of bytes, all."""
    if parameter.kind is ctypes.c_uint8:
        return content
    return encoded(parameter.kind, value_of(parameter.kind.from_buffer_copy(content)))


def encoded_call(sides, function, arguments, result, left):
    """A call as every_function.c reads it: the function's place, the sides of guards, the arguments, what it did."""
    yield bytes([FUNCTIONS.index(function), sides])
    pointers = []
    for parameter, argument in zip(function.parameters, arguments):
        if isinstance(argument, Place):
            content = encoded_place(parameter, argument.content_before())
            yield len(content).to_bytes(8, "little") * (parameter.kind is ctypes.c_uint8) + content
            pointers.append(parameter)
        else:
            yield encoded(parameter.kind, argument)
    did = b"" if function.result is None else encoded(function.result, result)
    did += b"".join(map(encoded_place, pointers, left))
    yield len(did).to_bytes(4, "little") + did


def has_no_place_in_32_bits(function, arguments):
    """Whether a number is too large for a size_t there. To ctypes a size_t is what a uint64_t is."""
    return any(parameter.kind == "size_t" and argument >= 2 ** 32
               for parameter, argument in zip(HEADER.functions[function.name].parameters, arguments))


def calls_of_functions(library, source, rounds):
    """So many calls of each function, as every_function.c reads them, how many there are, and how many of them have a
    number that is too large for a size_t of 32 bits."""
    calls = [*random_calls(library, source, rounds)]
    text = b"".join(part for call in calls for part in encoded_call(source.getrandbits(8), *call))
    return text, len(calls), sum(has_no_place_in_32_bits(*call[:2]) for call in calls)
