#!/usr/bin/env python3
"""Holds the definitions against the headers of Linux 6.1, which come with a package linux-headers-6.1*-common.

.ci/run runs it behind the gate; it is skipped where there are no such headers. Each place that a definition of specs/
reads has to begin and to end where a field of the kernel's structure does, and each field has to be read, unless nothing
is read there. The rows of sections have to go by the kernel's validation bits. What has no definition with its places
stands in docs/FORMATS.md, and is held the same way: tables' headers, the codes of actions and instructions with the
kernel's names, the error types with its bits, the sections with its GUIDs.
"""

import pathlib
import re
import sys

TOP = pathlib.Path(__file__).resolve().parent.parent
CRATES = TOP / "crates"
SIZES = {"u8": 1, "char": 1, "u16": 2, "u32": 4, "u64": 8, "guid_t": 16}
# A line of docs/FORMATS.md that stands before a table, and the structure that the table is of.
TABLES = [
    ("### The common header", "acpi_table_header"),
    ("### The error injection table", "acpi_table_einj"),
    ("### The address structure", "acpi_einj_error_type_with_addr"),
    ("### The trigger table", "acpi_einj_trigger"),
]
# A structure, and the definitions that read it, each with its file of specs/.
READERS = [
    ("acpi_generic_address", [("apei_base/specs/Region.antt", "gas_of")]),
    ("acpi_hest_notify", [("apei_hest/specs/Source.antt", "notify_of")]),
    ("acpi_hest_generic_v2", [
        ("apei_hest/specs/Structure.antt", "type_of"),
        ("apei_hest/specs/Source.antt", "ghes_of"),
        ("apei_hest/specs/Source.antt", "ack_of"),
    ]),
    ("acpi_einj_entry", [("apei_einj/specs/Entry.antt", "entry_of")]),
    ("acpi_hest_generic_status", [("cper_block/specs/Header.antt", "header_of")]),
    ("acpi_hest_generic_data_v300", [
        ("cper_block/specs/Entry.antt", "fields_of"),
        ("cper_block/specs/Entry.antt", "section_length"),
    ]),
]
# A file of rows in the specs/ of cper_sections, its structure, and the kernel's name of each validation bit, by row.
SECTIONS = [
    ("Memory", "cper_sec_mem_err", "CPER_MEM_VALID_", {
        "status": "ERROR_STATUS", "physical address": "PA", "mask": "PA_MASK", "node": "NODE", "card": "CARD",
        "module": "MODULE", "bank": "BANK", "device": "DEVICE", "row": "ROW", "column": "COLUMN",
        "bit position": "BIT_POSITION", "requestor": "REQUESTOR_ID", "responder": "RESPONDER_ID", "target": "TARGET_ID",
        "type": "ERROR_TYPE", "rank": "RANK_NUMBER", "card handle": "CARD_HANDLE", "module handle": "MODULE_HANDLE",
    }),
    ("Processor", "cper_sec_proc_generic", "CPER_PROC_VALID_", {
        "processor type": "TYPE", "isa": "ISA", "error type": "ERROR_TYPE", "operation": "OPERATION", "flags": "FLAGS",
        "level": "LEVEL", "version": "VERSION", "brand": "BRAND_INFO", "id": "ID", "target address": "TARGET_ADDRESS",
        "requestor": "REQUESTOR_ID", "responder": "RESPONDER_ID", "instruction pointer": "IP",
    }),
    ("Pcie", "cper_sec_pcie", "CPER_PCIE_VALID_", {
        "port type": "PORT_TYPE", "version minor": "VERSION", "version major": "VERSION", "command": "COMMAND_STATUS",
        "status": "COMMAND_STATUS", "vendor": "DEVICE_ID", "device id": "DEVICE_ID", "class": "DEVICE_ID",
        "function": "DEVICE_ID", "device": "DEVICE_ID", "segment": "DEVICE_ID", "bus": "DEVICE_ID",
        "secondary bus": "DEVICE_ID", "slot": "DEVICE_ID", "serial": "SERIAL_NUMBER",
        "bridge status": "BRIDGE_CONTROL_STATUS", "bridge control": "BRIDGE_CONTROL_STATUS", "capability": "CAPABILITY",
        "aer": "AER_INFO",
    }),
]
# How a definition reads a place, and how many bytes that has, where it does not say.
PLACES = [
    (r"number_at (?P<at>\d+) (?P<size>\d+) bytes", None),
    (r"(?:little_number|take) (?P<size>\d+) \(drop (?P<at>\d+) bytes\)", None),
    (r"slice_index bytes (?P<at>\d+)", 1),
    (r"gas_at (?P<at>\d+) bytes", 12),
    (r"guid_at (?P<at>\d+) bytes", 16),
    (r"notify_of \(drop (?P<at>\d+) bytes\)", 28),
]
GUIDS = {"memory": "CPER_SEC_PLATFORM_MEM", "processor": "CPER_SEC_PROC_GENERIC", "PCIe": "CPER_SEC_PCIE"}
# Where nothing is read, by the name of the field: what is reserved, and the number that a section begins with.
UNREAD = re.compile("reserved|validation_bits|extended")


def headers():
    """The text of the headers without comments, or none."""
    folders = sorted(pathlib.Path("/usr/src").glob("linux-headers-6.1.*-common"))
    if not folders:
        return None
    names = ["acpi/actypes.h", "acpi/actbl.h", "acpi/actbl1.h", "linux/cper.h"]
    text = "\n".join((folders[-1] / "include" / name).read_text() for name in names)
    return re.sub(r"/\*.*?\*/", "", text, flags=re.S)


def body_at(text, start):
    """The text between the brace that opens at `start` and the one that closes it, and where that stands."""
    depth = 0
    for at in range(start, len(text)):
        depth += {"{": 1, "}": -1}.get(text[at], 0)
        if depth == 0:
            return text[start + 1 : at], at
    raise ValueError("a brace is not closed")


def fields(text, body, base=0):
    """The fields of a structure's body that have no fields of their own: (offset, bytes, name), all packed."""
    found, at, offset = [], 0, base
    member = re.compile(r"\s*(?:struct\s*(\w*)|(\w+))\s*({)?")
    while body[at:].strip():
        match = member.match(body, at)
        inner = None
        if match[3]:
            inner, end = body_at(body, match.end() - 1)
            at = end + 1
        else:
            at = match.end()
        name, count = re.compile(r"\s*(\w+)\s*(?:\[\s*(\w+)\s*\])?\s*;").match(body, at).groups()
        at = body.index(";", at) + 1
        if inner is None and match[1]:
            inner = body_at(text, text.index(f"struct {match[1]} {{") + len(f"struct {match[1]} "))[0]
        if inner is None:
            size = SIZES[match[2]] * number(text, count)
            found.append((offset, size, name))
        else:
            nested = fields(text, inner, offset)
            found += nested
            size = sum(size for _, size, _ in nested)
        offset += size
    return found


def number(text, count):
    """A count of elements: none is 1, and a name is what it is defined as."""
    if count is None:
        return 1
    return int(count) if count.isdigit() else int(re.search(rf"#define\s+{count}\s+(\d+)", text)[1])


def table(lines, anchor, column):
    """The cells of the first table with this column behind a line that begins with `anchor`."""
    start = next(i for i, line in enumerate(lines) if line.startswith(anchor))
    head = next(i for i in range(start, len(lines)) if f"| {column} |" in lines[i])
    names = [cell.strip() for cell in lines[head].split("|")[1:-1]]
    for line in lines[head + 2 :]:
        if not line.startswith("|"):
            return
        yield dict(zip(names, (cell.strip() for cell in line.split("|")[1:-1])))


def rows(lines, anchor):
    """The rows of a table of offsets: (offset, bytes, name). Rows of varying place or length are left out."""
    for row in table(lines, anchor, "Offset"):
        width = row.get("Length", row.get("Width", row.get("Bits")))
        if row["Offset"].isdigit() and re.search(r"\d+$", width):
            bytes_of = int(re.search(r"\d+$", width)[0]) // (8 if "Bits" in row else 1)
            yield int(row["Offset"]), bytes_of, row["Field"]


def definition(spec, name):
    """The lines of a definition in a file of specs/: from its name up to an empty line."""
    return re.search(rf"^{name} .*?(?=^$|\Z)", spec, re.M | re.S)[0]


def places(readers):
    """What the definitions read: (offset, bytes, name). Offsets that have a name are looked up in the file."""
    for path, name in readers:
        spec = (CRATES / path).read_text()
        named = dict(re.findall(r"^(\w+) = (\d+)$", spec, re.M))
        for line in definition(spec, name).split("\n"):
            line = re.sub(r"\w+", lambda word: named.get(word[0], word[0]), line)
            for pattern, size in PLACES:
                for found in re.finditer(pattern, line):
                    yield int(found["at"]), size or int(found["size"]), line.split("=")[0].strip()


def section_rows(name):
    """The rows of a section: (offset, bytes, name, bit)."""
    spec = (CRATES / f"cper_sections/specs/{name}.antt").read_text()
    for row, bit, at, width in re.findall(r'_field \(codes "([^"]+)"\) (\d+) (\d+) (\d+)', spec):
        yield int(at), int(width), row, int(bit)


def misgiven(text, name, prefix, bits):
    """What is said of the rows of a section whose bits are not those of the kernel."""
    for _, _, row, bit in section_rows(name):
        value = re.search(rf"#define {prefix}{bits.get(row)}\s+(\w+)", text)
        if value is None or int(value[1], 0) != 1 << bit:
            yield f"the row {row} does not go by {prefix}{bits.get(row)}"


def misplaced(text, told, struct):
    """What is said of the rows and the fields that do not fit."""
    place = text.index(f"struct {struct} {{") + len(f"struct {struct} ")
    known, told = fields(text, body_at(text, place)[0]), list(told)
    begins, ends = {at for at, _, _ in known}, {at + size for at, size, _ in known}
    for at, size, name in told:
        if at not in begins or at + size not in ends:
            yield f"the row {name} at {at} is no field of {struct}"
    for at, size, name in known:
        if not UNREAD.search(name) and not any(a <= at and at + size <= a + s for a, s, _ in told):
            yield f"the field {name} of {struct} at {at} has no row"


def misnamed(text, lines, anchor, column, enum):
    """What is said of the codes whose words are not those of the kernel."""
    body = body_at(text, text.index(f"enum {enum} {{") + len(f"enum {enum} "))[0]
    names = {int(code, 0): name for name, code in re.findall(r"ACPI_EINJ_(\w+) = (\w+)", body)}
    for row in table(lines, anchor, column):
        words = names.get(int(row[column], 0), "?").replace("NOOP", "NO_OPERATION").lower().split("_")
        if not set(words) <= set(row["What"].split()):
            yield f"{column} {row[column]} is {' '.join(words)}"


def mistyped(text, lines):
    """What is said of the error types whose bits are not those of the kernel."""
    kinds = {"correctable": "CORRECTABLE", "uncorrectable, not fatal": "UNCORRECTABLE", "uncorrectable, fatal": "FATAL"}
    for row in table(lines, "**The error type**", "correctable"):
        for column, kind in kinds.items():
            name = f"ACPI_EINJ_{row[''].upper().replace('PCIE', 'PCIX')}_{kind}"
            shift = re.search(rf"#define {name}\s+\(1(?:<<(\d+))?\)", text)[1] or "0"
            if int(row[column], 16) != 1 << int(shift):
                yield f"{name} is not {row[column]}"


def misidentified(text, lines):
    """What is said of the sections whose GUIDs are not those of the kernel."""
    for row in table(lines, "## Sections of a data entry", "GUID"):
        init = re.search(rf"{GUIDS[row['Section']]}\s+\\\s+GUID_INIT\((.*?)\)", text, re.S)[1]
        parts = zip(re.findall(r"0x(\w+)", init), [8, 4, 4] + [2] * 8)
        digits = "".join(part.lower().zfill(width) for part, width in parts)
        if row["GUID"].replace("-", "") != digits:
            yield f"{row['Section']} is {digits}"


def main():
    text = headers()
    if text is None:
        print("skipped: there are no headers of Linux 6.1 here")
        return 0
    lines = (TOP / "docs" / "FORMATS.md").read_text().split("\n")
    entry = "### The entry of an error injection table"
    checks = [(struct, list(misplaced(text, rows(lines, anchor), struct))) for anchor, struct in TABLES]
    checks += [(struct, list(misplaced(text, places(readers), struct))) for struct, readers in READERS]
    for name, struct, prefix, bits in SECTIONS:
        told = [row[:3] for row in section_rows(name)]
        checks.append((struct, list(misplaced(text, told, struct)) + list(misgiven(text, name, prefix, bits))))
    checks.append(("the actions", list(misnamed(text, lines, entry, "Action", "acpi_einj_actions"))))
    checks.append(("the instructions", list(misnamed(text, lines, entry, "Instruction", "acpi_einj_instructions"))))
    checks.append(("the error types", list(mistyped(text, lines))))
    checks.append(("the sections", list(misidentified(text, lines))))
    for name, said in checks:
        print(f"FAILED {name}: {'; '.join(said)}" if said else f"ok {name}")
    return int(any(said for _, said in checks))


sys.exit(main())
