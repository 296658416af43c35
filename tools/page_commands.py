"""The commands of a page: what its blocks say that a shell prints, and what one does print.

In a block that begins with ```console a line behind `$ ` is a command, and the lines under it are what it prints, on standard
output and standard error together. A page's commands are those of one shell, from the first to the last. Blocks of another kind
have the same form; what is done with them is up to who asks for them.
"""
import subprocess
import tempfile

SECONDS = 60


def is_command(line):
    return line.startswith("$ ")


def marked(text, kind="console"):
    """The page's lines, each with whether it stands in a block of that kind."""
    is_inside = False
    for line in text.splitlines():
        if line.startswith("```"):
            is_inside = line == f"```{kind}"
            yield line, False
        else:
            yield line, is_inside


def commands_of(text, kind="console"):
    """The commands of the blocks of that kind, each with what it is said to print, as lines."""
    found = []
    for line, is_inside in marked(text, kind):
        if is_inside and is_command(line):
            found.append((line[2:], []))
        elif is_inside:
            found[-1][1].append(line)
    return found


def printed_by(commands, folder):
    """What each command prints, as lines, where one shell does them in that folder."""
    said = "\n".join(f"{{ {command}\n}} 2>&1\nprintf '\\n=== {number}\\n'" for number, command in enumerate(commands))
    with tempfile.NamedTemporaryFile("w", suffix=".sh") as script:
        script.write(said)
        script.flush()
        how = {"cwd": folder, "stdin": subprocess.DEVNULL, "stdout": subprocess.PIPE, "stderr": subprocess.STDOUT}
        ran = subprocess.run(["bash", script.name], timeout=SECONDS, check=False, **how)
    text, found = ran.stdout.decode(errors="replace"), []
    for number in range(len(commands)):
        printed, _, text = text.partition(f"\n=== {number}\n")
        found.append(printed.splitlines())
    return found


def as_tried(text, folder):
    """The page with what its commands print in place of what it says that they print."""
    printed = iter(printed_by([command for command, _ in commands_of(text)], folder))
    lines = []
    for line, is_inside in marked(text):
        if is_inside and is_command(line):
            lines += [line, *next(printed)]
        elif not is_inside:
            lines.append(line)
    return "\n".join(lines) + "\n"
