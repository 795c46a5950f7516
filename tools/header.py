#!/usr/bin/env python3
"""header.py: writes a C program that compiles only if the headers of include/ say what the Rattle side says.

It reads the `#[repr(C)]` structs, the exports and the numbers of gt_c and of the crates below it, and declares and
asserts them again, by the layout rules of C with pointers of 8 bytes: each export with its types, the size of each
struct and the offset of each field, and the number of each name. A declaration that differs from the header's is an
error of the compiler. What the one side has and the other has not is an error here, and so is an export of a pointer
without a function of the header in front of it that tests the pointer. The same is done for the structs and functions
of contrib/rust. The lines of the rules have to be those of `gthost rules`. The version is the same wherever it stands.
"""

import pathlib
import re
import sys

TOP = pathlib.Path(__file__).resolve().parent.parent
STRUCTS = {
    "DomainHandle": "gthost_domain", "DomainSettings": "gthost_settings", "EncodedFault": "gthost_fault",
    "EncodedAnswer": "gthost_answer", "MapHandle": "gthost_handle", "MappedFrame": "gthost_mapping",
    "CopyEnd": "gthost_end", "CopySettings": "gthost_copy", "PlaceReport": "gthost_place",
    "PlacesReport": "gthost_places", "EncodedRecord": "gthost_record", "MappingReport": "gthost_found_mapping",
    "RecordReport": "gthost_found_record", "BegunReport": "gthost_begun_copy", "EntryBytes": "gthost_entry_bytes",
    "FaultText": "gthost_text", "RuleText": "gthost_rule_line", "EntryStatus": "gthost_entry_status",
    "EntryReport": "gthost_found_entry", "TypeReport": "gthost_type", "NameReport": "gthost_name",
    "MapRequest": "gthost_map_request",
}
OF_RUST = {
    "Domain": "gthost_domain", "Settings": "gthost_settings", "Fault": "gthost_fault", "Answer": "gthost_answer",
    "Handle": "gthost_handle", "Mapping": "gthost_mapping", "End": "gthost_end", "Copying": "gthost_copy",
    "Place": "gthost_place", "Places": "gthost_places", "Record": "gthost_record",
    "FoundMapping": "gthost_found_mapping", "FoundRecord": "gthost_found_record", "BegunCopy": "gthost_begun_copy",
    "EntryBytes": "gthost_entry_bytes", "Text": "gthost_text", "RuleLine": "gthost_rule_line",
    "EntryStatus": "gthost_entry_status", "FoundEntry": "gthost_found_entry", "Type": "gthost_type",
    "Name": "gthost_name", "MapRequest": "gthost_map_request",
}
SCALARS = {
    "u8": ("uint8_t", 1), "u16": ("uint16_t", 2), "u32": ("uint32_t", 4), "u64": ("uint64_t", 8), "i32": ("int32_t", 4),
    "bool": ("bool", 1), "usize": ("size_t", 8), "*mut u8": ("void *", 8), "*mut c_void": ("void *", 8),
}
EMPTY = {"Global"}  # the allocator: it takes no bytes
KINDS = {"Version": "TABLE_VERSION"}  # a name of the header, where it is no other spelling of the Rattle side's word
ZEROS = {"GTHOST_OK", "GTHOST_NOTHING", "GTHOST_FAULT_NONE"}
# Functions of the header that call no export, or only by another function of the header.
OWN = {
    "gthost_copy_in", "gthost_copy_out", "gthost_handle_of", "gthost_null_answer", "gthost_null_mapping", "gthost_null_entry", "gthost_null_record",
    "gthost_null_copy", "gthost_mapped_of", "gthost_reads_in", "gthost_writes_in", "gthost_is_valid",
    "gthost_copy_in", "gthost_copy_out",
}
# The limits of gt_types that the header names.
LIMITS = {
    "MAX_DOMAINS", "FRAME_SIZE", "MAX_TABLE_FRAMES", "LAST_VERSION", "MAX_MAPPINGS", "MAX_PINS",
    "LAST_GENERATION", "DOMID_SELF", "MOST_RESERVED",
}
# The numbers that Xen's public header has too, by its names.
OF_XEN = {
    "GTHOST_MAP_WRITABLE": "GNTMAP_host_map", "GTHOST_MAP_READ_ONLY": "GNTMAP_host_map | GNTMAP_readonly",
    "GTHOST_COPY_SOURCE_GREF": "GNTCOPY_source_gref", "GTHOST_COPY_DEST_GREF": "GNTCOPY_dest_gref",
}


def sources():
    texts = []
    for crate in ("gt_c/src/**/*.rt", "gt_start/src/*.rt", "gt_attached/src/*.rt", "gt_types/src/**/*.rt", "gt_audit/src/pieces.rt"):
        for path in sorted((TOP / "crates").glob(crate)):
            texts.append(re.sub(r"//.*", "", path.read_text(encoding="utf-8")))
    return "\n".join(texts)


def spelled(name):
    """UPPER_CASE of a CamelCase name."""
    return re.sub(r"(?<=[a-z])(?=[A-Z])", "_", name).upper()


def structs(text):
    found = {}
    for name, body in re.findall(r"#\[repr\(C\)\]\s*(?:#\[[^\]]*\]\s*)*pub struct (\w+) \{(.*?)\n\}", text, re.S):
        fields = re.findall(r"^\s*(?:pub(?:\(\w+\))? )?(?!ghost)(\w+): ([^,{]+),$", body, re.M)
        found[name] = [(field, kind.strip()) for field, kind in fields]
    return found


def measure(all_structs, kind):
    """The size and the alignment of a type, and the scalars in it by their path and offset."""
    if kind in EMPTY:
        return 0, 1, []
    if kind in SCALARS:
        size = SCALARS[kind][1]
        return size, size, [("", 0, size)]
    array = re.fullmatch(r"\[(\w+); (\d+)\]", kind)
    if array:
        size, align, _ = measure(all_structs, array.group(1))
        return size * int(array.group(2)), align, [("", 0, size * int(array.group(2)))]
    at, widest, places = 0, 1, []
    for field, inner in all_structs[kind]:
        size, align, inside = measure(all_structs, inner)
        at = -(-at // align) * align
        places += [(f".{field}{path}", at + offset, width) for path, offset, width in inside]
        at += size
        widest = max(widest, align)
    return -(-at // widest) * widest, widest, places


def layouts(all_structs, names):
    for name, told in names.items():
        if name not in all_structs:
            raise SystemExit(f"header: there is no struct {name} for {told}")
        size, _, places = measure(all_structs, name)
        yield f"_Static_assert(sizeof(struct {told}) == {size}, \"{told}\");"
        for path, offset, width in places:
            path = path.lstrip(".").replace("held.", "")  # the pointer of a handle, which the header has flat
            yield f"_Static_assert(offsetof(struct {told}, {path}) == {offset}, \"{told}.{path}\");"
            yield f"_Static_assert(sizeof(((struct {told} *)0)->{path}) == {width}, \"{told}.{path}\");"


def c_type(kind, name, names):
    """The parameters of C for one of Rattle or of Rust."""
    slice_of = re.fullmatch(r"&(mut )?\[(\w+)\]", kind)
    pointer = re.fullmatch(r"(?:&|\*)(mut |const )?(\w+)", kind)
    if slice_of or pointer:
        mutable, inner = (slice_of or pointer).groups()
        told = SCALARS[inner][0] if inner in SCALARS else f"struct {names[inner]}"
        at = f"{'' if mutable == 'mut ' else 'const '}{told} *{name}"
        return [at, f"size_t {name}_len"] if slice_of else [at]
    return [f"{SCALARS[kind][0] if kind in SCALARS else 'struct ' + names[kind]} {name}"]


def scalars(declaration):
    """The names of a declaration's parameters that are neither pointers nor, after those, the lengths of slices."""
    params = declaration[declaration.index("(") + 1 : declaration.rindex(")")].split(",")
    return [re.search(r"\w+$", one.strip()).group() for one in params if "*" not in one and "size_t" not in one]


def compare_order(header, made):
    """Two parameters of one type that are exchanged give the same declaration: so their names have to be the same."""
    for name, declaration in made.items():
        told = scalars(re.search(rf"\b{name}\(.*?\);", header, re.S).group())
        if told != scalars(declaration):
            raise SystemExit(f"header: {name} takes {told}, and the Rattle side {scalars(declaration)}")


def parameters(declaration):
    inside = declaration[declaration.index("(") + 1 : declaration.rindex(")")]
    return [" ".join(one.split()) for one in inside.split(",")]


# Where an export stores what the function in front of it returns.
RESULTS = ("struct gthost_answer *answer", "struct gthost_begun_copy *begun")


def passed_as(param, params):
    """How a function of the header passes on an export's parameter: as it is, or a value or its answer by address."""
    name = re.search(r"\w+$", param).group()
    if param in params:
        return name
    if re.fullmatch(r"size_t \w+_count", param) and "size_t count" in params:
        return "count"  # of two arrays that are of one length
    if param in RESULTS or param.removeprefix("const ").replace(" *", " ") in params:
        return f"&{name}"
    raise SystemExit(f"header: the function in front of an export does not take {param}")


def compare_inline(header, exports):
    """The function in front of each export tests each pointer, and passes on what it was passed."""
    for name, export in exports.items():
        found = re.search(rf"static inline struct \w+ ({name}\([^;{{}}]*\))\s*\{{(.*?)\n\}}", header, re.S)
        if not found:
            raise SystemExit(f"header: there is no function {name} in front of {export}")
        params, body = parameters(found.group(1)), found.group(2)
        passed = [passed_as(one, params) for one in parameters(re.search(rf"\b{export}\(.*?\);", header, re.S).group())]
        names = [re.search(r"\w+$", one).group() for one in params]
        if list(dict.fromkeys(word.lstrip("&") for word in passed if word not in ("&answer", "&begun"))) != names:
            raise SystemExit(f"header: {name} takes other parameters than {export}")
        pointers = [word for word, one in zip(names, params) if "*" in one]
        untested = [word for word in pointers if not re.search(rf"return {word} \?|!{word}\b|if \({word}\)", body)]
        if untested or f"{export}({', '.join(passed)})" not in body:
            raise SystemExit(f"header: {name} does not test its pointers, or passes {export} something else")


def declarations(found, names):
    for name, params, result in found:
        told = []
        for param in filter(None, (one.strip() for one in params.split(","))):
            field, kind = (one.strip() for one in param.split(":", 1))
            if kind not in EMPTY:
                told += c_type(kind, field, names)
        answered = (SCALARS[result][0] if result in SCALARS else f"struct {names[result]}") if result else "void"
        yield name, f"{answered} {name}({', '.join(told) or 'void'});"


def exports(text):
    found = re.findall(r'pub extern "C" fn (\w+)\((.*?)\)(?: -> (\w+))?\s*(?=\{|ensures)', text, re.S)
    return dict(declarations(found, STRUCTS))


def rust():
    text = "\n".join((TOP / "contrib" / "rust" / "src" / name).read_text(encoding="utf-8") for name in ("raw.rs", "types.rs"))
    text = re.sub(r"//.*", "", text).replace("super::", "")
    found = re.findall(r"^    pub fn (gthost_\w+)\((.*?)\)(?: -> (\w+))?;", text, re.S | re.M)
    return structs(text), dict(declarations(found, OF_RUST))


def numbers(text):
    """Each number that the Rattle side has a word for, by its name in the header."""
    for word, number in re.findall(r"AttachedOutcome::(\w+)\(\w+\) => given\((\d+),", text):
        yield f"GTHOST_{KINDS.get(word, spelled(word))}", number
    for number in re.findall(r"fn mapped\(made: NamedMapping\).*?kind: (\d+),", text, re.S):
        yield "GTHOST_HANDLE", number
    for number in re.findall(r"fn released\(left: LeftWord\).*?kind: (\d+),", text, re.S):
        yield "GTHOST_RELEASED", number
    for word, number in re.findall(r"AttachedOutcome::(Ended|Reference)\(\w+\) => EncodedAnswer \{\s*kind: (\d+),", text):
        yield f"GTHOST_{spelled(word)}", number
    for number, word in enumerate(re.findall(r"^\s*(N\d+)(?: = 1)?,$", text, re.M), 1):
        yield f"GTHOST_{word}", str(number)
    for word, number in re.findall(r"\bFollowed::(\w+) => (\d+),", text):
        yield f"GTHOST_FOLLOWED_{spelled(word)}", number
    for word, number in re.findall(r"EntryKind::(Invalid|Page|Sub|Via) => (\d+),", text):
        yield f"GTHOST_ENTRY_{spelled(word)}", number
    for word, number in re.findall(r"Facts::(\w+)[^=]*=> EncodedAnswer \{\s*kind: (\d+),", text):
        yield f"GTHOST_{spelled(word)}", number
    for word, number in re.findall(r"Field::(\w+) => (\d+),", text):
        yield f"GTHOST_FIELD_{spelled(word)}", number
    for word, number in re.findall(r"pub const (NO_DOMAIN|BUSY|NO_MEMORY|NO_COPY|ABSENT): u32 = (\d+);", text):
        yield f"GTHOST_{word}", number
    for word, number in re.findall(r"(?:PolicyFaultKind|ConfigFault)::(\w+)(?:\(\w+\))? => fault_at\((\d+),", text):
        yield f"GTHOST_FAULT_{spelled(word)}", number
    for number in re.findall(r"fn label_fault.*?kind: (\d+),", text, re.S):
        yield "GTHOST_FAULT_LABEL", number
    for word, number in re.findall(r"const (MEMORY|HANDLES|TEXT|NO_TYPE): EncodedFault = EncodedFault \{\s*kind: (\d+),", text):
        yield f"GTHOST_FAULT_{word}", number
    for number in re.findall(r'(\d+) => "a pointer is null",', text):
        yield "GTHOST_FAULT_NULL_POINTER", number
    for number in re.findall(r'(\d+) => "the pointer to the handle is null",', text):
        yield "GTHOST_NULL_POINTER", number
    for word, number in re.findall(r"pub const (\w+): u(?:16|32|size) = (\w+);", text):
        if word in LIMITS:
            yield f"GTHOST_{word}", number.replace("_", "")
    for word, number in re.findall(r"^\s*const ([A-Z_]+) = (\d+);", text, re.M):
        yield f"GTHOST_PERM_{word}", number
    for number in re.findall(r"fn with_copy\(.*?call: (\d+),", text, re.S):
        yield "GTHOST_CALL_COPY", number
    for word, number in re.findall(r"Hypercall::(\w+)[^=]*=> EncodedRecord \{\s*call: (\d+),", text):
        yield f"GTHOST_CALL_{'UNMAP_NONE' if word == 'Unmap' and number == '3' else spelled(word)}", number


def statuses(text):
    for word, number in re.findall(r"Status::(\w+) => (-\d+),", text):
        yield f"GNTST_{spelled(word).lower()}", number


def asserted(pairs):
    return "\n".join(f'_Static_assert(({name}) == ({number}), "{name}");' for name, number in pairs)


def compare_free(said):
    """The answer of the header alone, about a null pointer, has a number that no answer of the library has."""
    own = said["GTHOST_NULL_POINTER"]
    taken = [name for name in ("NO_DOMAIN", "BUSY", "NO_MEMORY", "NO_COPY", "ABSENT") if said[f"GTHOST_{name}"] == own]
    if taken or int(own) <= 26:
        raise SystemExit(f"header: the number of GTHOST_NULL_POINTER has another meaning: {own} {' '.join(taken)}")


def compare_versions(header, text):
    """The version of the header, of the library, of the program, of the wrapper in Rust and of the README is one."""
    def number(*parts):
        return sum(int(part) << shift for part, shift in zip(parts, (16, 8, 0)))

    def of(path, line):
        page = (TOP / path).read_text(encoding="utf-8")
        return number(*re.search(line + r"(\d+)\.(\d+)\.(\d+)", page, re.M).groups())

    said = {
        "gthost.h": int(re.search(r"#define GTHOST_VERSION 0x(\w+)", header).group(1), 16),
        "gt_c": int(re.search(r"const VERSION: u32 = 0x(\w+);", text).group(1).replace("_", ""), 16),
        "gt_command_line": of("crates/gt_command_line/src/line.rt", '^const VERSION: &str = "'),
        "contrib/rust": of("contrib/rust/Cargo.toml", '^version = "'),
        "README.md": of("README.md", "Version "),
        "CHANGELOG.md": of("CHANGELOG.md", r"^## \["),
    }
    if len(set(said.values())) > 1:
        raise SystemExit(f"header: the versions differ: {', '.join(f'{at} {it:#08x}' for at, it in said.items())}")


def compare_rules(text):
    """The library's lines of the rules are those that `gthost rules` prints (crates/cases_program/stdout)."""
    made = re.sub(r"\\\n\s*", "", re.search(r"const LINES: .*?= \[(.*?)\];", text, re.S).group(1))
    printed = (TOP / "crates" / "cases_program" / "stdout").read_text(encoding="utf-8").split("\n")
    missing = [line for line in re.findall(r'"(N\d+ [^"]*)"', made) if line not in printed]
    if missing:
        raise SystemExit(f"header: gthost rules does not print {missing[0]}")


def compare_names(what, declared, made):
    if declared != made:
        raise SystemExit(f"header: {what} that one side lacks: {' '.join(sorted(declared ^ made))}")


def main():
    text = sources()
    header = "\n".join((TOP / "include" / name).read_text(encoding="utf-8") for name in ("gthost_types.h", "gthost.h"))
    header = re.sub(r"/\*.*?\*/", "", header, flags=re.S)
    made, said, of_status = exports(text), dict(numbers(text)), dict(statuses(text))
    rust_structs, rust_made = rust()
    in_front = {export.removesuffix("_at"): export for export in made if export.endswith("_at")}
    compare_names("exports", set(re.findall(r"\b(gthost_\w+)\(", header)), set(made) | set(in_front) | OWN)
    compare_inline(header, in_front)
    compare_names("structs", set(re.findall(r"^struct (\w+) \{", header, re.M)), set(STRUCTS.values()))
    compare_names("numbers", set(re.findall(r"\b(GTHOST_\w+) =", header)), set(said) | ZEROS | set(OF_XEN))
    compare_free(said)
    compare_versions(header, text)
    compare_rules(text)
    compare_order(header, made)
    compare_order(header, rust_made)
    print('#include "gthost.h"\n')
    print("\n".join([*layouts(structs(text), STRUCTS), *layouts(rust_structs, OF_RUST)]))
    print(asserted([*said.items(), *((name, 0) for name in sorted(ZEROS))]))
    print("#if __has_include(<xen/grant_table.h>)\n#include <xen/xen.h>\n#include <xen/grant_table.h>")
    print(asserted([*OF_XEN.items(), *of_status.items()]) + "\n#endif")
    print("\n".join([*made.values(), *rust_made.values()]))
    print("int main(void) { return 0; }")
    count = len(said) + len(ZEROS) + len(OF_XEN) + len(of_status)
    print(f"header: {len(made)} exports, {len(STRUCTS)} structs and {count} numbers are compared", file=sys.stderr)


if __name__ == "__main__":
    main()
