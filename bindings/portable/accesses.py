#!/usr/bin/env python3
"""usage: bindings/portable/accesses.py: reads the module as C, after edits.sed, and writes it with quicker accesses to its
memory.

- The memory's address and size are a variable of each function. Only the module's host makes the memory larger, so a function
  reads them again after each call from which the host can be asked for memory.
- A place is taken as the 64-bit number that the proved module has. wasm-opt had it cut to 32 bits.
- `pointer + distance` is checked as `pointer`, so that one comparison does for all fields of a struct. After the memory are
  SPARE bytes that may be touched. `(pointer + distance) - distance` is written, which a compiler makes `pointer`. Whatever
  the distance is, the same byte is taken, and never one outside of the block.
- What gcc would make slow code of is marked: it makes one jump of all choices by a condition that is used more than once,
  additions of products by constants, and adds in another order, so that what is known last is not added last.
- A function that only reads the place of the stack doesn't write it back. Nothing has changed it: the functions that it calls
  are of the same kind, and the host sets no such place.
"""
import re
import sys

SPARE = 16384
FARTHEST = SPARE - 8
# Products by smaller numbers are quick as additions.
LEAST_FACTOR = 65536

HEAD = re.compile(r"(?:\w+ )*[\w*]+ (\w+)\(Z_hayro_jbig2_instance_t\*")
CALL = re.compile(r"\b(w2c_\w+|Z_heapZ_\w+)\)?\((?:instance|\(struct)")
ACCESS = re.compile(
    r"( *(?:w2c_\w+ = )?\w+_(?:load|store)\w*\()&instance->w2c_memory, \(u64\)\(w2c_i(\d+)\)(?: \+ (\d+)u?)?(.*;)"
)
LABEL = re.compile(r" *w2c_\w+:;? *")
NUMBER = re.compile(r" *w2c_j(\d+) = (\d+)ull;")
PRODUCT = re.compile(r" *w2c_j\d+ \*= (w2c_j(\d+));")
SUM = re.compile(r" *w2c_j(\d+) \+= w2c_j(\d+);")
PLACE = re.compile(r" *w2c_i(\d+) = \(u32\)\(w2c_j\1\);")
KEPT = re.compile(r" *w2c_([lp]\d+) = w2c_j(\d+);")
TAKEN = re.compile(r" *w2c_j(\d+) = w2c_([lp]\d+);")
SET = re.compile(r" *w2c_([ijlp])(\d+) (?:[-+*/%&|^]|<<|>>)?= ")
CHOICE = re.compile(r"( *w2c_[ij]\d+ = )(w2c_i\d+)( \? w2c_[ij]\d+ : w2c_[ij]\d+;)")
WIDENED = re.compile(r"( *w2c_j(\d+) = )\(u64\)\(w2c_i\2\);")
SMALL_SUM = re.compile(r" *w2c_i(\d+) \+= (w2c_i\d+);")
HOST = {"Z_heapZ_jbig2_c_take", "Z_heapZ_jbig2_c_give_back"}
STACK_READ = "  w2c_j0 = instance->w2c_g0;"
STACK_SET = re.compile(r" *instance->w2c_g0 = w2c_j0;")
COMPARED = re.compile(r" *(w2c_i\d+) = .*(?: [<>]=? | [=!]= |!\().*;")


def functions(lines):
    """The name of each function, with the lines that it begins and ends at."""
    found, start = {}, None
    for number, line in enumerate(lines):
        head = HEAD.match(line)
        if head and not line.endswith(";"):
            name, start = head[1], number
        elif line == "}" and start is not None:
            found[name], start = (start, number), None
    return found


def growing(lines, found):
    """The functions from which the host can be asked for memory."""
    calls = {name: set(CALL.findall("\n".join(lines[start + 1 : end]))) for name, (start, end) in found.items()}
    known, more = set(), {"Z_heapZ_jbig2_c_take"}
    while more:
        known |= more
        more = {name for name, called in calls.items() if called & known} - known
    return known


def restored(body):
    """The variable in which a function keeps the place of the stack, where it sets that place once at most, to what it was. None
    where it sets another place; an empty name where it sets none."""
    numbers = [number for number, line in enumerate(body) if "instance->w2c_g0 =" in line]
    if not numbers:
        return ""
    kept = KEPT.fullmatch(body[body.index(STACK_READ) + 1]) if body.count(STACK_READ) == 1 else None
    if len(numbers) > 1 or not kept or not STACK_SET.fullmatch(body[numbers[0]]):
        return None
    changes = [line for line in body if (match := SET.match(line)) and match[1] + match[2] == kept[1]]
    taken = TAKEN.fullmatch(body[numbers[0] - 1])
    return kept[1] if len(changes) == 1 and taken and taken.groups() == ("0", kept[1]) else None


def leaving_stack(lines, found):
    """The functions during which the place of the stack is never another one."""
    bodies = {name: lines[start + 1 : end] for name, (start, end) in found.items()}
    known = {name for name, body in bodies.items() if restored(body) is not None} | HOST
    calls = {name: set(CALL.findall("\n".join(body))) for name, body in bodies.items()}
    while others := {name for name in known if calls.get(name, set()) - known}:
        known -= others
    return known


class Distances:
    """How far the numbers of the stack and the variables are from the pointers that they were made of, line by line."""

    def __init__(self):
        self.of_stack, self.of_variables, self.numbers, self.places = {}, {}, {}, {}

    def read(self, line):
        if LABEL.fullmatch(line):
            self.of_stack, self.numbers, self.places = {}, {}, {}
        elif match := NUMBER.fullmatch(line):
            self.set_stack(match[1], 0)
            self.numbers[match[1]] = int(match[2])
        elif match := SUM.fullmatch(line):
            distance = self.of_stack.get(match[1], 0) + self.numbers.get(match[2], SPARE)
            self.set_stack(match[1], distance if distance <= FARTHEST else 0)
        elif match := TAKEN.fullmatch(line):
            self.set_stack(match[1], self.of_variables.get(match[2], 0))
        elif match := KEPT.fullmatch(line):
            self.of_variables[match[1]] = self.of_stack.get(match[2], 0)
        elif match := PLACE.fullmatch(line):
            self.places[match[1]] = self.of_stack.get(match[1], 0)
        elif match := SET.match(line):
            self.set_other(*match.groups())

    def set_stack(self, slot, distance):
        self.of_stack[slot] = distance
        self.numbers.pop(slot, None)
        self.places.pop(slot, None)

    def set_other(self, kind, number):
        if kind == "j":
            self.set_stack(number, 0)
        elif kind == "i":
            self.places.pop(number, None)
        else:
            self.of_variables[kind + number] = 0


def quick_access(match, distances):
    """An access by the memory's variable, a checked place and a distance from it."""
    before, slot, offset, after = match.groups()
    place, near = f"w2c_j{slot}", distances.places[slot]
    far = near + int(offset or 0)
    if far > FARTHEST:
        near, far, place = 0, 0, f"{place} + {offset}u" if offset else place
    elif near:
        place = f"{place} - {near}u"
    return f"{before}&memory, (size_t)({place}), {far}u{after}"


def quick_line(line, before, after, distances):
    """A line of a function, with those beside it; None where it isn't needed."""
    if match := ACCESS.fullmatch(line):
        return quick_access(match, distances)
    if (match := CHOICE.fullmatch(line)) and COMPARED.sub(r"\1", before) != match[2]:
        return f"{match[1]}wasm_rt_hidden({match[2]}){match[3]}"
    if (match := PRODUCT.fullmatch(line)) and distances.numbers.get(match[2], 0) > LEAST_FACTOR:
        return line.replace(match[1], f"wasm_rt_hidden_factor({match[1]})")
    # A slot of the stack has either a number of 32 bits or one of 64, so the sum isn't used after it is widened.
    if (match := SMALL_SUM.fullmatch(line)) and (wide := WIDENED.fullmatch(after)) and wide[2] == match[1]:
        return f"{wide[1]}wasm_rt_sum(w2c_i{match[1]}, {match[2]});"
    if (match := WIDENED.fullmatch(line)) and (small := SMALL_SUM.fullmatch(before)) and small[1] == match[2]:
        return None
    return line


def quick_function(body, grows, asking, leaves_stack):
    """The lines of a function; asking: the functions that may make the memory larger."""
    distances, has_accesses, quick = Distances(), any(ACCESS.fullmatch(line) for line in body), []
    for before, line, after in zip(["", *body], body, [*body[1:], ""]):
        made = None if leaves_stack and STACK_SET.fullmatch(line) else quick_line(line, before, after, distances)
        if has_accesses and any(name in asking for name in CALL.findall(line)):
            made += " memory = instance->w2c_memory;"
        quick.append(made)
        distances.read(line)
    if has_accesses:
        place = quick.index("  FUNC_PROLOGUE;")
        quick[place] = f"  {'' if grows else 'const '}wasm_rt_memory_t memory = instance->w2c_memory;"
    return quick


def main():
    lines = sys.stdin.read().split("\n")
    found = functions(lines)
    asking, leaving = growing(lines, found), leaving_stack(lines, found)
    for name, (start, end) in found.items():
        lines[start:end] = quick_function(lines[start:end], name in asking, asking, name in leaving)
    text = "\n".join(line for line in lines if line is not None)
    pages = re.search(r"wasm_rt_allocate_memory\(&instance->w2c_memory, (\d+), ", text)[1]
    sizes = f"#define LEAST_SIZE ({pages} * 65536)\n"
    sizes += f"#if WASM_RT_SPARE_BYTES < {SPARE}\n#error the memory has too few bytes after it\n#endif\n"
    sys.stdout.write(text.replace("\n#define TRAP(x)", f"\n{sizes}\n#define TRAP(x)", 1))


if __name__ == "__main__":
    main()
