"""How the command is used: the help of all of it, the help of one command, and what is wrong with words that are none."""
import difflib

from btreplay.places import is_checkout
from btreplay.words import COMMANDS, FILES, OPTIONS, THREE, as_program_gets, is_text

HEAD = "btreplay runs scripts of the bpftrace language over recordings of Linux tracepoint events."
EXAMPLES = """examples:
    {name} run --serial examples/block_latency.bt examples/small.btr
    {name} run -e 't:sched:sched_switch {{ @[cpu] = count(); }}' examples/small.btr
    {name} explain my.bt my.btr
"""
SCRIPTS = "SCRIPT may be - for standard input, or -e 'PROGRAM' for a script as it stands.\n"
CHOICE = """    --proved      refuses to answer by anything but the proved program
    --unproved    answers by the build that is checked as it runs, which is made where it is not there
"""


def name_here():
    """How the command is called where it stands."""
    return "./btreplay" if is_checkout() else "btreplay"


def commands_here():
    """The commands that there are: an installed program is proved."""
    return [name for name in COMMANDS if name != "prove" or is_checkout()]


def form(name):
    """A command with its options and operands, as it is called."""
    command = COMMANDS[name]
    return " ".join(["btreplay", name, *(f"[{option}]" for option in command.options), *command.operands])


def whole_help():
    """What it is, its commands with a line of meaning each, its options, and three examples."""
    lines = [HEAD, "", "usage: btreplay COMMAND [OPTIONS] OPERANDS", "       btreplay help COMMAND", "       btreplay --help | --version", "", "commands:"]
    lines += [f"    {name:<9}{' '.join(COMMANDS[name].operands):<27}{COMMANDS[name].meaning}" for name in commands_here()]
    lines += ["", SCRIPTS.rstrip(), "", "options, which may stand anywhere behind the command:"]
    lines += [f"    {option:<14}{meaning}" for option, meaning in OPTIONS.items() if is_checkout() or option != "--background"]
    text = "\n".join(lines) + "\n"
    return text + (CHOICE if is_checkout() else "") + "\n" + EXAMPLES.format(name=name_here())


def help_of(name):
    """How one command is used."""
    command = COMMANDS[name]
    lines = [f"usage: {form(name)}", "", f"{name} {command.meaning}." if " " in command.meaning else name]
    if "SCRIPT" in command.operands:
        lines.append(SCRIPTS.rstrip())
    lines += [f"    {option:<14}{OPTIONS[option]}" for option in command.options]
    return "\n".join(lines) + "\n" + (CHOICE if is_checkout() and command.is_programs else "")


def meant(name):
    """The command that a word may be meant for, or none."""
    return next(iter(difflib.get_close_matches(name, commands_here(), 1, 0.6)), None)


def count_of(name, words):
    """What a command takes, and how many words stand there."""
    command = COMMANDS[name]
    count = sum(word == "-" or not word.startswith("-") for word in words)
    takes = {FILES: "a script and a recording", THREE: "a script, a recording and an account", (): "no words"}.get(
        command.operands, "two numbers, as in 7 1000")
    line = f"{name} takes {takes}"
    return line + (f", and {count} {'word stands' if count == 1 else 'words stand'} there" if count != len(command.operands) else "")


def listed(words):
    """Words as a sentence lists them."""
    *before, last = words
    return f"{', '.join(before)} and {last}" if before else last


def what_is_wrong(words):
    """The line that says what is wrong with words that are no command."""
    if not words:
        return f"no command is given; {name_here()} run SCRIPT RECORDING is the first one to try"
    name = words[0]
    if name not in commands_here():
        near = meant(name) if not name.startswith("-") else "--version" if name == "-v" else None
        return f"there is no {'option' if name.startswith('-') else 'command'} {name}" + (f"; {near} may be meant" if near else "")
    options = COMMANDS[name].options
    other = [word for word in words[1:] if word.startswith("-") and word != "-" and word not in options]
    if other[:1] == ["-e"] and "SCRIPT" in COMMANDS[name].operands and words[-1] == "-e":
        return "a script stands behind -e, and a recording" + (", and an account" if COMMANDS[name].operands == THREE else "")
    other = [word for word in other if word != "-e" or "SCRIPT" not in COMMANDS[name].operands]
    if other:
        return f"{name} has no option {other[0]}" + (f"; it has {listed(options)}" if options else "")
    twice = [option for option in options if words.count(option) > 1]
    if twice:
        return f"{twice[0]} stands there more than once"
    if "" in words[1:]:
        return "an empty word is no name of a file"
    if not all(is_text(word) for word in as_program_gets(words)):
        return "a word that is no UTF-8 text is no name of a file"
    return count_of(name, words_without_script(words))


def words_without_script(words):
    """The words behind the command, but for one behind -e, which -e stands for."""
    later = list(words[1:])
    if "-e" in later[:-1]:
        place = later.index("-e")
        later[place:place + 2] = ["script"]
    return later


def usage_of(words):
    """The usage that stands behind what is wrong: of the command where there is one, else of all."""
    return help_of(words[0]) if words and words[0] in commands_here() else whole_help()
