#!/usr/bin/env python3
"""Measures the way of a line of a script: the functions, files and crates of this repository that run for it, and the
types through which its call and its answer pass.

A function runs for the line if it is called more often than in the same script without the line. The program is built
without optimization, by the kit's own compiler, in a copy of the repository, so that each function is there under its
name; instances of a generic function count once, closures and drops not at all. Callgrind counts the calls. A change of
type is a function of the way that returns another type than the value that it takes, or that puts it into a list or a
value of another type (`&mut`). WALKS lists them, and each must run for the line and name its type.

usage: tools/walks.py [PROGRAM]    PROGRAM: built so before (`rt run --backend rattle --opt-level 0 -- --help`)
       tools/walks.py --names      without a build: only whether each function is there and names its type
"""
import functools, glob, os, re, subprocess, sys, tempfile

TOP = os.path.dirname(os.path.dirname(os.path.abspath(__file__)))

HEAD = """triple b_t a_t map_read
triple b_t a_t map_write
triple a_t b_t copy
domain 1 u:r:a_t 8 1 1
domain 2 u:r:b_t 8 1 1
do 1 grant 0 page 2 rw 5
"""

# A line, the command, the lines of the script before it, the changes of type up to the first step, and those from the
# last result to the line's answer: each is the type and the function that returns it.
WALKS = [
    (
        "do 2 map h 1 0 rw",
        "play",
        HEAD,
        [
            ("ScriptCall", "gt_script_lines::calls::read_map"),
            ("BodyLine", "gt_script_lines::body::read_body_line"),
            ("ScriptLine", "gt_script_lines::lines::read_line"),
            ("ScriptAction", "gt_script::actions::play_action_in"),
            ("Script", "gt_script::script::Script::add_step"),
            ("Request", "gt_script_runs::requests::request_of"),
            ("OpenRequest", "gt_calls::asking::judge_request"),
            ("Judged", "gt_calls::call::Call::begin"),
            ("Action", "gt_calls::call::Call::next"),
        ],
        [
            ("Answer", "gt_core::kept::Machine::settle_call"),
            ("Ticked", "gt_core::machine::ticked_as"),
            ("Answer", "gt_host::run::tick_up_to"),
        ],
    ),
    (
        "do 2 copy gref 1 0 0 frame self 3 0 4",
        "run",
        f"{HEAD}tell 1 granted\nawait 2 granted\n",
        [
            ("End", "gt_script_lines::calls::read_end"),
            ("ScriptCall", "gt_script_lines::calls::read_copy"),
            ("BodyLine", "gt_script_lines::body::read_body_line"),
            ("ScriptLine", "gt_script_lines::lines::read_line"),
            ("RunAction", "gt_script::actions::run_action_in"),
            ("Script", "gt_script::script::Script::add_task"),
            ("Request", "gt_script_runs::requests::request_of"),
            ("Leg", "gt_calls::copying::end_leg"),
        ],
        [
            ("AccessFault", "gt_words::words::Words::copy_frames"),
            ("Denial", "gt_live::domain::copies::copy_through"),
            ("Answer", "gt_run::running::copied"),
        ],
    ),
]


def calls_of(program, command, script):
    """Returns how often each function is called when the command runs this script."""
    with tempfile.TemporaryDirectory() as room:
        file, counts = f"{room}/script.gt", f"{room}/counts"
        with open(file, "w", encoding="utf-8") as it:
            it.write(script)
        valgrind = ["valgrind", "--tool=callgrind", f"--callgrind-out-file={counts}"]
        subprocess.run([*valgrind, program, command, file], check=True, capture_output=True)
        return counted(counts)


def counted(file):
    """Reads the calls of each function from what callgrind wrote."""
    names, found, called = {}, {}, None
    with open(file, encoding="utf-8", errors="replace") as lines:
        for line in lines:
            told = re.match(r"(fn|cfn)=\((\d+)\)(?: (.*))?", line)
            if told:
                if told[3]:
                    # without the types of a generic function, and without callgrind's count of recursions
                    names[told[2]] = re.sub(r"(::<[^>]*>)+|'\d+$", "", told[3].strip())
                called = names[told[2]] if told[1] == "cfn" else None
            elif line.startswith("calls=") and called:
                found[called] = found.get(called, 0) + int(line[6:].split()[0])
    return found


def sources():
    """Returns the source file of each module of the repository's crates, by its path (`gt_calls::call`)."""
    found = {}
    for file in glob.glob(f"{TOP}/crates/*/src/**/*.rt", recursive=True):
        crate, inside = re.fullmatch(r".*/crates/(\w+)/src/(.*)\.rt", file).groups()
        parts = [it for it in inside.split("/") if it not in ("lib", "main", "mod")]
        found["::".join([crate, *parts])] = file
    return found


def file_of(function, modules):
    """Returns the file of a function: that of its module, or the one in its crate that has it in an `impl` of its
    type."""
    *path, name = function.split("::")
    while path and "::".join(path) not in modules:
        path.pop()
    near = modules.get("::".join(path))
    crate, kind = function.split("::")[0], function.split("::")[-2]
    for file in [near, *(modules[it] for it in sorted(modules) if it.split("::")[0] == crate)]:
        text = text_of(file) if file else ""
        if re.search(rf"\bfn {name}\b", text) and (kind[0].islower() or re.search(rf"\bimpl\b.*\b{kind}\b", text)):
            return file
    return near


@functools.lru_cache(None)
def text_of(file):
    with open(file, encoding="utf-8") as it:
        return it.read()


def made_by(function, modules):
    """Returns the types that a function returns, or that it puts a value into, as its source has them."""
    *_, kind, name = function.split("::")
    head = re.search(rf"\bfn {name}\b.*?(?=\n\s*(?:ensures|requires|\{{))", text_of(file_of(function, modules)), re.S)
    if not head:
        return ""
    takes, _, result = head[0].rpartition("->")
    return " ".join([result, *re.findall(r"&mut [^,)]+", takes)]).replace("&mut self", kind)


def walk(program, line, command, head, modules):
    """Returns the functions of the repository that run for this line after these."""
    before, after = calls_of(program, command, head), calls_of(program, command, f"{head}{line}\n")
    ours = {it.partition("::")[0] for it in modules}
    is_counted = lambda it: it.partition("::")[0] in ours and not re.search(r"Destruct|::drop\b|::fn::", it)
    return {it for it in after if is_counted(it) and after[it] > before.get(it, 0)}


def main(words):
    modules = sources()
    wrong = 0
    is_measured = words != ["--names"]
    with tempfile.TemporaryDirectory() as room:
        program = (words[0] if words else built(room)) if is_measured else None
        for line, command, head, there, back in WALKS:
            ran = walk(program, line, command, head, modules) if is_measured else None
            for kind, function in [*there, *back]:
                names_it = re.search(rf"\b{kind}\b", made_by(function, modules))
                if names_it and (not is_measured or function in ran):
                    continue
                fault = f"does not run for `{line}`" if names_it else f"is not there, or does not name {kind}"
                print(f"walks: {function} {fault}", file=sys.stderr)
                wrong = 1
            if is_measured:
                files = {file_of(it, modules) for it in ran}
                crates = {it.partition("::")[0] for it in ran}
                counts = [len(it) for it in (ran, files, crates, there, back)]
                print(f"| `{line}`, `{command}` | {' | '.join(map(str, counts))} |")
    return wrong


def built(room):
    """Builds the program without optimization in a copy of the repository, and returns its path."""
    subprocess.run(f"cd '{TOP}' && tar -c --exclude=out crates.txt HANDLES crates | tar -x -C '{room}'", shell=True, check=True)
    folder = f"{room}/crates/gthost"
    subprocess.run(["rt", "run", "--backend", "rattle", "--opt-level", "0", "--", "--help"], cwd=folder, check=True, stdout=sys.stderr)
    return f"{folder}/out/gthost"


if __name__ == "__main__":
    sys.exit(main(sys.argv[1:]))
