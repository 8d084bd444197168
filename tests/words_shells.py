"""What the shells complete: the commands, the options of each of them, and what is said of these."""
import re
import subprocess

HELP = {"-h", "--help"}
# What the program takes in the place of a command, and in front of one.
VERSION = {"-V", "--version", "--explain", "--plain"}
BASH, ZSH = "completions/prepaid.bash", "completions/_prepaid"
# What bash completes of words behind `prepaid`, where it isn't all options of a command: the last word is begun.
COMPLETED = [
    (["--explain", "pr"], {"price"}),
    (["--explain", "run", "--work"], {"--workers"}),
    (["--plain", "rate", "--su"], {"--summary"}),
    (["run", "--default", "pro"], {"proceed"}),
    (["serve", "--log", "READ"], {"README.md"}),
    (["run", "--into", "READ"], set()),
    (["run", "--into", "exam"], {"examples"}),
]
# Options whose help goes on from that of --tssf, which is of a switch: other shells list them in another order.
OF_SWITCH = {("run", "--tccd"), ("run", "--delay")}


def completed(*words):
    """What bash completes behind these words, the last of which is begun."""
    shell = 'source "$1"; shift; COMP_WORDS=("$@"); COMP_CWORD=$(($# - 1)); _prepaid; echo "${COMPREPLY[*]}"'
    said = subprocess.run(["bash", "-c", shell, "bash", BASH, *words], capture_output=True, text=True, check=True)
    return set(said.stdout.split())


def said_in_bash(names):
    """What bash completes: the commands, and the options of each of them."""
    shell = 'source "$1"; complete -p prepaid'
    how = subprocess.run(["bash", "-c", shell, "bash", BASH], capture_output=True, text=True, check=True).stdout
    if not all(f"-o {it} " in how for it in ("default", "filenames")):
        raise SystemExit(f"{BASH}: no names of files where no word fits: {how}")
    first = completed("prepaid", "")
    commands = {it: completed("prepaid", it, "") for it in first | names if not it.startswith("-")}
    if not commands["help"] == set(commands):
        raise SystemExit(f"{BASH}: help takes other commands: {commands['help']}")
    commands["help"] = set()
    words = {("run", "--default"): ", ".join(sorted(completed("prepaid", "run", "--default", "")))}
    return commands if HELP | VERSION <= first else {}, words


def said_in_zsh(path):
    """The same of the page for zsh, by its text: zsh may not be at hand."""
    with open(path) as file:
        text = file.read()
    listed = set(re.findall(r"^    '([a-z]+):", text, re.M))
    commands = {}
    for name, arm in re.findall(r"^    ([a-z]+)\)\n(.*?);;", text, re.M | re.S):
        commands[name] = set(re.findall(r"'(--[a-z]+)\[", arm)) | (HELP if "{-h,--help}" in arm else set())
    words = {("run", "--default"): ", ".join(re.search(r"--default\[[^]]*\]:word:\(([^)]*)\)", text)[1].split())}
    if any(it not in text for it in ("{-V,--version}", "'--explain[", "'--plain[")):
        raise SystemExit(f"{path}: no version, or no word in front of a command")
    return commands if listed == set(commands) else {"listed": listed}, words


def completion_faults(program, options, commands):
    """Where a shell completes other words behind an option than that takes, or says something else of it, or of a command,
    than the help."""
    wrong = []
    for (name, option), (value, _) in options.items():
        found, wanted = completed("prepaid", name, option, ""), set() if value else commands[name]
        if value not in ("FILE", "FOLDER", "WORD") and found != wanted:
            wrong.append(f"{BASH}: prepaid {name} {option}: {found} in place of {wanted}")
    for words, wanted in COMPLETED:
        if (found := completed("prepaid", *words)) != wanted:
            wrong.append(f"{BASH}: prepaid {' '.join(words)}: {found} in place of {wanted}")
    with open(ZSH) as file:
        text = file.read()
    told = subprocess.run([program, "--help"], capture_output=True, text=True, check=True).stdout
    for name, said in re.findall(r"^  ([a-z]+) +(.*)$", told.partition("Options:")[0], re.M):
        if name != "help" and f"\n    '{name}:{said}'\n" not in text:
            wrong.append(f"{ZSH}: doesn't say of {name}: {said}")
    arms = re.findall(r"^    ([a-z]+)\)\n(.*?);;", text, re.M | re.S)
    found = {(name, option): (bool(more), said) for name, arm in arms
             for option, said, more in re.findall(r"'(--[a-z]+)\[([^]]*)\](:?)", arm)}
    for it, (value, said) in options.items():
        said = said.replace(" it", " a switch") if it in OF_SWITCH else said
        if found.get(it) != (bool(value), said):
            wrong.append(f"{ZSH}: {it}: {found.get(it)} in place of {bool(value), said}")
    return wrong
