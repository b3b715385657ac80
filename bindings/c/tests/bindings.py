"""The calls of the shared library and its structures, with the types that hayro_jbig2.h declares. For tests and trials:
bindings/python/ has a package."""
import ctypes
import pathlib
import re

PREFIX = "hayro_jbig2_"
NUMBERS = {
    "bool": ctypes.c_bool, "size_t": ctypes.c_size_t, "uint32_t": ctypes.c_uint32, "uint64_t": ctypes.c_uint64
}
RESULTS = {**NUMBERS, "void": None, "const char *": ctypes.c_char_p}
HEADER = pathlib.Path(__file__).parents[1].joinpath("hayro_jbig2.h").read_text("utf-8")
CALL = re.compile(rf"^(const char \*|\w+ ){PREFIX}(\w+)\(([^;]*)\);", re.M)
STRUCTURE = re.compile(rf"^typedef struct {PREFIX}(\w+) {{\n(.*?)^}}", re.M | re.S)
FIELDS = re.compile(rf"^ *({'|'.join(NUMBERS)}) ([\w, ]+);", re.M)
PARAMETER = re.compile(r"\s*(?:const )?(\w+) (\**)\w+\s*")


def structures():
    """The structures that have numbers alone, by their names without the prefix."""
    found = {}
    for name, body in STRUCTURE.findall(HEADER):
        if "(*" not in body:
            lines = FIELDS.findall(body)
            fields = [(field, NUMBERS[kind]) for kind, names in lines for field in names.split(", ")]
            found[name] = type(name, (ctypes.Structure,), {"_fields_": fields})
    return found


STRUCTURES = structures()


def type_of(parameter):
    """What Python hands over for a parameter: a number, bytes, a pointer to a number or a structure, or a handle."""
    kind, stars = PARAMETER.fullmatch(parameter).groups()
    if kind == "uint8_t":
        return ctypes.c_char_p
    pointed = NUMBERS.get(kind) or STRUCTURES.get(kind.removeprefix(PREFIX))
    if pointed:
        return ctypes.POINTER(pointed) if stars else pointed
    return ctypes.POINTER(ctypes.c_void_p) if stars == "**" else ctypes.c_void_p


def loaded(path):
    """The library, all of whose calls have types."""
    library = ctypes.CDLL(path)
    for result, name, parameters in CALL.findall(HEADER):
        call = getattr(library, PREFIX + name)
        call.argtypes = [type_of(parameter) for parameter in parameters.split(",") if parameter != "void"]
        call.restype = RESULTS[result.strip()]
    return library
