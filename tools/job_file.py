"""The job file: its header and lists, why the job program refuses one, and the words that state it (job.py --help lists them)."""

import re
import struct

ROUTES = {"horner": 1, "ranged": 2, "bernstein": 3, "kinoshita-li": 4}
# route, modulus, order, outer count, outer offset, inner count, inner offset
HEADER = struct.Struct("<7I")
# what the job program takes: bytes of a file, and the order and the counts that its header states
MOST_BYTES = 4096
MOST_PLACES = 64


def list_in(file, count, offset):
    """The list, or None where it does not lie wholly in the file."""
    if count and offset + 4 * count > len(file):
        return None
    return struct.unpack_from(f"<{count}I", file, offset) if count else ()


def is_prime(candidate):
    divisor = 2
    while divisor * divisor <= candidate:
        if candidate % divisor == 0:
            return False
        divisor += 1
    return candidate >= 2


def misplaced(file, name, count, offset):
    """Why a list is misplaced, or None."""
    which = f"the {name} list of {count} {'number' if count == 1 else 'numbers'} at byte {offset}"
    if count and offset < HEADER.size:
        return f"{which} begins in the header, which ends at byte {HEADER.size}"
    if count and offset + 4 * count > len(file):
        return f"{which} ends at byte {offset + 4 * count}, the file has {len(file)} bytes"
    return None


def refusal(file):
    """The number by which the job program refuses the file, and why; 0 where it is accepted."""
    if len(file) > MOST_BYTES:
        return 12, f"the file has {len(file)} bytes, more than {MOST_BYTES}"
    if len(file) < HEADER.size:
        return 13, f"the file has {len(file)} bytes, its header would have {HEADER.size}"
    route, modulus, order, outer_count, outer_offset, inner_count, inner_offset = HEADER.unpack_from(file)
    for name, stated in (("order", order), ("outer count", outer_count), ("inner count", inner_count)):
        if stated > MOST_PLACES:
            return 12, f"the {name} is {stated}, more than {MOST_PLACES}"
    lists = (("outer", outer_count, outer_offset), ("inner", inner_count, inner_offset))
    for name, count, offset in lists:
        if why := misplaced(file, name, count, offset):
            return 13, why
    if route not in ROUTES.values():
        return 1, f"the route is {route}, not 1, 2, 3 or 4"
    if not is_prime(modulus):
        return 2, f"the modulus {modulus} is no prime"
    if order == 0:
        return 3, "the order is 0"
    for name, count, offset in lists:
        for power, coefficient in enumerate(list_in(file, count, offset)):
            if coefficient >= modulus:
                return 8, f"the {name} coefficient of power {power} is {coefficient}, not below the modulus {modulus}"
    return 0, ""


def folded(word, values):
    """The word and its values, sixteen to a line."""
    rows = [" ".join(map(str, values[at : at + 16])) for at in range(0, len(values), 16)]
    return " ".join([word, "\n    ".join(rows)]).rstrip()


def words_of(file):
    """The words of a file that has a whole header, a line for each."""
    route, modulus, order, outer_count, outer_offset, inner_count, inner_offset = HEADER.unpack_from(file)
    names = {value: f"  # {name}" for name, value in ROUTES.items()}
    lines = [f"route {route}{names.get(route, '')}", f"modulus {modulus}", f"order {order}"]
    stated = bytearray(len(file))
    stated[: HEADER.size] = b"x" * HEADER.size
    outer_end = outer_offset + 4 * outer_count
    lists = (("outer", outer_count, outer_offset, HEADER.size), ("inner", inner_count, inner_offset, outer_end))
    for name, count, offset, usual in lists:
        numbers = list_in(file, count, offset)
        if numbers is None:
            lines.append(f"{name}-count {count}")
        else:
            lines.append(folded(name, numbers))
            stated[offset : offset + 4 * count] = b"x" * (4 * count)
        if offset != usual:
            lines.append(f"{name}-offset {offset}")
    for run in re.finditer(b"\0+", bytes(stated)):
        lines.append(folded(f"spare {run.start()}", file[run.start() : run.end()]))
    return lines
