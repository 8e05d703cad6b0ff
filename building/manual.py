"""The manual page of the program, from its `--help`.

The help begins with what the program does and how it is called. Each line without an indent and with a colon at its end begins a section.
Each entry of a section is a word with a sentence next to it or below it, further indented.
"""
import re

ENTRY = re.compile(r" {2,6}(?P<words>(?:-|\[|<|[a-z])\S*(?: \S+)*)(?: {2,}(?P<about>\S.*))?")
DEEPER = " " * 8


def escape(text: str) -> str:
    """Returns text for troff: hyphens that stay so, and no line that begins with a command."""
    text = text.replace("\\", "\\e").replace("-", "\\-")
    return f"\\&{text}" if text.startswith((".", "'")) else text


def entries(lines: list) -> list:
    """Returns the lines of a section as pairs of words and sentences. A line outside of an entry has no words."""
    found = []
    for line in lines:
        entry = ENTRY.fullmatch(line)
        if entry and not line.startswith(DEEPER):
            found.append([entry["words"], entry["about"] or ""])
        elif line.startswith(DEEPER) and found:
            found[-1][1] = f"{found[-1][1]} {line.strip()}".strip()
        elif line.strip():
            found.append(["", line.strip()])
    return found


def section(title: str, lines: list) -> str:
    """Returns a section of the page."""
    parts = [f".TP\n\\fB{escape(words)}\\fR\n" if words else ".PP\n" for words, _ in entries(lines)]
    texts = [f"{part}{escape(about)}\n" for part, (_, about) in zip(parts, entries(lines))]
    return f".SH {escape(title.upper())}\n{''.join(texts)}"


def command_section(help_text: str, name: str) -> str:
    """Returns the section of a command with this help, whose entries follow each other without a heading."""
    front, *rest = re.split(r"^(\S[^\n]*):$", help_text, flags=re.M)
    lines = [line for text in (front, *rest[1::2]) for line in text.splitlines() if not line.startswith("Usage:")]
    return section(name, lines)


def page(help_text: str, commands: dict, name: str, version: str, about: str) -> str:
    """Returns the page of a program with this help and these commands, the help of each by its name. `about` says what the program does in a
    few words."""
    front, *rest = re.split(r"^(\S[^\n]*):$", help_text, flags=re.M)
    lines = front.splitlines()
    usage = [line.removeprefix("Usage:").strip() for line in lines if line.startswith(("Usage:", "       "))]
    does = " ".join(line.strip() for line in lines if line and not line.startswith(("Usage:", "       ")))
    head = f'.TH {name.upper()} 1 "" "{name} {version}" "User Commands"\n.SH NAME\n{name} \\- {about}\n'
    calls = "\n.br\n".join(f"\\fB{name}\\fR {escape(call.removeprefix(name).strip())}" for call in usage)
    sections = "".join(section(title, text.splitlines()) for title, text in zip(rest[::2], rest[1::2]))
    sections += "".join(command_section(text, f"The command {command}") for command, text in commands.items())
    return f"{head}.SH SYNOPSIS\n{calls}\n.SH DESCRIPTION\n{escape(does)}\n{sections}"
