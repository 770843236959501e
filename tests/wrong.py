#!/usr/bin/env python3
"""wrong.py SAID [ROOT]: says of each wrong program whether the prover refused it for a fact.

SAID is a file with what `rt ci` or `rt must-fail` printed of the must-fail edits under ROOT/crates: a line for each,
with the first error of the prover. Where that line does not decide, `rt check` says all, in copies of the crates with
the edit made, over the work that earlier checks on this machine kept; and where an edit has several wrong programs
and one of them shows nothing, in a copy with that one alone. A proof can also fail because it no longer fits what was
edited, and that shows nothing: an error under src/ or specs/, an error at an invariant or a measure
(proofs/F/Invariants.antt), a name that is not there, a form that does not parse, a wrong number of arguments.

An edit of src/ holds one wrong program or more, in different functions, each named by a line `wrong: NAME in
FUNCTION` above its replacements: of each of these functions a fact must fail, at an answer of its proof files or at a
goal that the tactics alone do not prove, and its proof files must fit. Only answers to goals that are gone show
neither, since most goals have the name of a condition, which an edit may change: where no more goals are open, the
answers are given to these. An edit of specs/ is one wrong definition, named by its file: a computed row must fail (an
item of proofs/Examples.antt or proofs/ByteTables.antt whose proof is `refl`, or `refl` for each of its parts) or,
where the edit has a line `theorem: NAME`, that item.

Exit status: 0 every wrong program is refused for a fact; 1 some are not; 2 an edit is malformed, or SAID has no line
of it.
"""
import concurrent.futures, os, pathlib, queue, re, shutil, subprocess, sys, tempfile

ROWS = ("proofs/Examples.antt", "proofs/ByteTables.antt")
# an error of a log, or the one of an edit's line: the file below the crate, the item, the message
ERROR = re.compile(r"(?:^|: )(?:\./)?((?:src|specs|proofs)/\S+?):\d+:\d+: error(?:\[[^\]]*\])?: "
                   r"(?:`([^`]+)`: )?(.*)$", re.M)
NOTHING = "no fact fails"
RENAMED = "only goals that have another name now are open"
# an answer to a goal that is gone: most goals have the name of a condition, and an edit changes some
GONE = re.compile(r"`goal\.[^`]*`: module `[^`]*\.Goals` has no `")
# what follows from an error that stands elsewhere
FOLLOWS = re.compile(r"which was (?:rejected|not admitted)|was not admitted|cannot be unfolded because")
# the proof does not fit what was edited; what stands in backquotes is left out
MISFIT = re.compile(r"is not in scope|that can be named from here|has no (?:`|field)|`` is not a (?:field|constructor)|"
                    r"is no name|parse error|unexpected|too (?:many|few) arguments|takes (?:no|\d+) arguments?|"
                    r"not a function|unknown |operand is missing|expected the end|cannot continue")


def stop(why):
    print(f"wrong.py: {why}", file=sys.stderr)
    sys.exit(2)


def read_edit(file):
    """The folder that an edit changes (src or specs), its wrong programs as (name, function), the theorem it names, and
    what it replaces as (name of the program, file, old, new)."""
    folders, programs, theorem, pending, path, old, pairs = set(), [], None, False, None, None, []
    for number, line in enumerate(file.read_text(encoding="utf-8").split("\n"), 1):
        wrong = re.fullmatch(r"wrong: (\S+) in (\S+)", line)
        named = re.fullmatch(r"theorem: (\S+)", line)
        place = re.fullmatch(r"file: ((src|specs)/\S+)", line)
        if wrong:
            programs.append(wrong.groups())
            pending = True
        elif named and theorem is None:
            theorem = named[1]
        elif place:
            folders.add(place[2])
            path, pending = place[1], False
        elif line.startswith("old: "):
            old = line[5:]
        elif re.match(r"new:( |$)", line):
            pairs.append((programs[-1][0] if programs else None, path, old, line[5:]))
        elif line:
            stop(f"{file}:{number}: no line of an edit: {line}")
    if len(folders) != 1 or pending:
        stop(f"{file}: an edit changes src/ or specs/, and replaces something after each `wrong:` line")
    folder = folders.pop()
    if (folder == "src") != bool(programs) or programs and theorem:
        stop(f"{file}: an edit of src/ names its programs by `wrong:`; an edit of specs/ names at most a theorem")
    return folder, programs, theorem, pairs


def errors_of(log):
    """The errors of what rt said, as ERROR has them."""
    return [it for it in ERROR.findall(log) if not FOLLOWS.search(it[2])]


def fits(error):
    """Whether an error is no misfit of a proof."""
    file, _, said = error
    return not file.endswith("/Invariants.antt") and not MISFIT.search(re.sub(r"`[^`]*`", "``", said))


def is_row(crate, file, item):
    """Whether an item is a computed row: its proof is `refl`, or `refl` for each of its parts."""
    if file not in ROWS:
        return False
    text = (crate / file).read_text(encoding="utf-8")
    proof = re.search(rf"^ *{re.escape(item)} =(.*?)(?:\n\n|\Z)", text, re.M | re.S)
    return bool(proof) and not re.sub(r"\brefl\b|[\s(),]", "", proof[1])


def definition(crate, errors, theorem):
    """Why a wrong definition is not refused for a fact, or nothing."""
    if any(not file.startswith("proofs/") for file, _, _ in errors):
        return "the edited definition does not stand"
    for error in errors:
        if fits(error) and (error[1] == theorem if theorem else is_row(crate, *error[:2])):
            return None
    return f"`{theorem}` does not fail" if theorem else "no computed row fails"


def program(crate, log, errors, function):
    """Why a wrong program in a function is not refused for a fact, or nothing."""
    if any(not file.startswith("proofs/") for file, _, _ in errors):
        return "the edited code does not stand"
    here, gone = at_answers(crate, errors, function)
    misfits = [f"{e[0].rpartition('/')[2]}: `{e[1]}`: {e[2][:80]}" for e in here if e not in gone and not fits(e)]
    if misfits:
        return "the proof does not fit the edited code: " + "; ".join(misfits[:2])
    if any(fits(e) for e in here) or len(open_goals(crate, log, function)) > len(gone):
        return None
    return f"{RENAMED}: {', '.join(e[1] for e in gone)}" if gone else NOTHING


def cycles_of(crate, function):
    """The cycles of calls that a function of that name is in, and the other functions of these: #[cycle(..)] says."""
    own = function.rpartition("::")[2]
    source = "\n".join(it.read_text(encoding="utf-8") for it in sorted(crate.glob("src/**/*.rt")))
    marked = re.findall(r"#\[cycle\((\w+)\)\]\s+(?:#\[.*\]\s+)*(?:[\w()]+ )*fn (\w+)", source)
    cycles = {cycle for cycle, name in marked if name == own}
    return cycles, {name for cycle, name in marked if cycle in cycles and name != own}


def at_answers(crate, errors, function):
    """The errors at the proof files of a function, and those of them that say that a goal is gone. A function that
    calls itself has the folder `+F`, and a cycle of calls has one, `+CYCLE`, in that of the module or the type: there
    an answer is named for its function, and a misfit is one for each of them, since they are proved as one."""
    *above, own = function.split("::")
    beside = "|".join("".join(f"{part}/" for part in above[:n]) for n in range(len(above) + 1))
    cycles, others = cycles_of(crate, function)
    files = rf"proofs/(?:{'/'.join(above + [own])}|(?:{beside})\+(?:{'|'.join([own, *sorted(cycles)])}))/\w+\.antt"
    here = [e for e in errors if re.fullmatch(files, e[0])]
    here = [e for e in here if not is_of(e[1], others) or not GONE.match(e[2]) and not fits(e)]
    return here, [e for e in here if GONE.match(e[2])]


def is_of(item, functions):
    """Whether an answer or a goal of a cycle is that of one of these functions."""
    return any(item.startswith(f"{name}-") for name in functions)


def answers_to(crate, log, function):
    """A replacement that gives a function's answers whose goals are gone to the goals that are open, in their order."""
    gone, goals = at_answers(crate, errors_of(log), function)[1], open_goals(crate, log, function)
    if not gone or len(gone) != len(goals):
        return []
    old = new = (crate / gone[0][0]).read_text(encoding="utf-8")
    for error, goal in zip(gone, goals):
        new = re.sub(rf"(?<![\w-]){re.escape(error[1])}(?![\w-])", goal, new)
    return [(None, gone[0][0], old, new)]


def open_goals(crate, log, function):
    """The goals of a function that neither an answer nor the tactics prove, as the log has them above its line. Above
    that of each function of a cycle stand those of all."""
    goals, others = [], cycles_of(crate, function)[1]
    for line in log.split("\n"):
        goal = re.match(r"note: \S+: it is not proved that .*\(`([^`]+)`\)", line)
        told = re.match(r"fn \w+::(\S+): ", line)
        if told and told[1] == function:
            return [it for it in goals if not is_of(it, others)]
        goals = goals + [goal[1]] if goal else [] if told else goals
    return []


def check(copy, crate, pairs):
    """What `rt check` says in a copy of the repository whose crate has these replacements."""
    where = copy / "crates" / crate
    texts = {path: (where / path).read_text(encoding="utf-8") for _, path, _, _ in pairs}
    edited = dict(texts)
    for _, path, old, new in pairs:
        edited[path] = edited[path].replace(old, new)
    try:
        for path, text in edited.items():
            (where / path).write_text(text, encoding="utf-8")
        how = {"stdin": subprocess.DEVNULL, "stdout": subprocess.PIPE, "stderr": subprocess.STDOUT}
        return subprocess.run(["rt", "check", "--jobs", "1"], cwd=where, text=True, errors="replace", **how).stdout
    finally:
        for path, text in texts.items():
            (where / path).write_text(text, encoding="utf-8")


def judge(edit, line, free):
    """Why each wrong program of an edit is not refused for a fact, or nothing, as (name, function, why)."""
    crate, (folder, programs, theorem, pairs) = edit.parent.parent, read_edit(edit)
    whole = [(edit.stem, None)] if folder == "specs" else programs
    if "BAD EDIT" in line:
        what = "definition" if folder == "specs" else "code"
        return [(*it, f"the edited {what} does not stand: {line}") for it in whole]
    if "refused, as it must be" not in line:
        lacks = NOTHING if folder == "src" else definition(crate, [], theorem)
        return [(*it, f"{lacks}: {line}") for it in whole]
    if folder == "specs" and definition(crate, errors_of(line), theorem) is None:
        return [(*whole[0], None)]
    copy = free.get()
    try:
        log = check(copy, crate.name, pairs)
        if folder == "specs":
            return [(*whole[0], definition(crate, errors_of(log), theorem))]
        told = []
        for name, function in programs:
            why = program(crate, log, errors_of(log), function)
            own, said = [it for it in pairs if it[0] == name], log
            if why == NOTHING and len(programs) > 1:                # goals may wait for those of another wrong program
                said = check(copy, crate.name, own)
                why = program(crate, said, errors_of(said), function)
            if why and why.startswith(RENAMED) and answers_to(crate, said, function):
                said = check(copy, crate.name, own + answers_to(crate, said, function))
                why = program(crate, said, errors_of(said), function)
            told.append((name, function, why))
        return told
    finally:
        free.put(copy)


def main():
    said = pathlib.Path(sys.argv[1]).read_text(encoding="utf-8", errors="replace")
    root = pathlib.Path(sys.argv[2] if len(sys.argv) > 2 else pathlib.Path(__file__).resolve().parent.parent)
    lines = dict(re.findall(r"^rt: must-fail (\S+)\.edit: (.*)$", said, re.M))
    edits = sorted(root.glob("crates/*/must-fail/*.edit"))
    for edit in edits:
        read_edit(edit)
        if f"{edit.parent.parent.name}/{edit.stem}" not in lines:
            stop(f"{edit}: no line of it in {sys.argv[1]}; `rt ci` and `rt must-fail` print one")
    shown = wrong = 0
    at_once = min(4, len(os.sched_getaffinity(0)))
    with tempfile.TemporaryDirectory() as work, concurrent.futures.ThreadPoolExecutor(at_once) as pool:
        free = queue.SimpleQueue()
        for n in range(at_once):
            copy = pathlib.Path(work) / str(n)
            shutil.copytree(root / "crates", copy / "crates", ignore=shutil.ignore_patterns("out", "must-fail"))
            shutil.copy(root / "crates.txt", copy)
            free.put(copy)
        told = pool.map(lambda it: judge(it, lines[f"{it.parent.parent.name}/{it.stem}"], free), edits)
        for edit, found in zip(edits, told):
            for name, function, why in found:
                wrong += 1
                shown += why is None
                if why:
                    within = f" in {function}" if function else ""
                    print(f"{edit.parent.parent.name}/{edit.stem}: {name}{within}: {why}", file=sys.stderr)
    print(f"wrong programs: {shown} of {wrong} refused for a fact")
    return shown != wrong


sys.exit(main())
