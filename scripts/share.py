"""The completion of `bouwkamp` for bash, zsh and fish, and its manual page, made from README.md and from the text of `help`.

`scripts/check_docs.py` holds what is in share/ against them, and with --write makes it anew.
"""
import re
import textwrap

from sources import text_of

# The text of `help`, without its first line.
HELP = "crates/bk_ask/src/lib.rt"
MADE_BY = "Made by scripts/check_docs.py --write from README.md: change that, and not this file."
# Where a range has at most so many numbers, all are offered.
FEW = 20
# A manual page has this date until its form is another.
DATE = "2026-12-01"
WIDTH = 78


# ---- what README and `help` say


def rows(text, header):
    """Returns the cells of each row of the table with this header."""
    _, is_there, rest = text.partition(f"{header}\n")
    found = []
    for line in rest.split("\n")[1:] if is_there else []:
        if not line.startswith("|"):
            break
        found.append([it.strip().replace("\\|", "|") for it in re.split(r"(?<!\\)\|", line.strip("|"))])
    return found


def commands():
    """Returns for each command, in the order of `help`, its form with its options and what it does."""
    text = re.search(r'const COMMANDS: .*?b"\\\n(.*?)";', text_of(HELP), re.DOTALL)[1]
    lines = re.findall(r"^(.*?): (.*?)\\n", text, re.MULTILINE)
    return {form.split()[0]: (form, what) for form, what in lines}


def values_in(text):
    """Returns the values that the text of a cell names, if they are few: words between backticks, or a range."""
    words = re.findall(r"`([^`]+)`", text)
    found = re.search(r"\b(\d[\d,]*) to (\d[\d,]*)\b", text)
    if words or not found:
        return words
    first, last = (int(it.replace(",", "")) for it in found.groups())
    return [str(it) for it in range(first, last + 1)] if last - first < FEW else []


def options():
    """Returns for each command that has options each option with its values, if they are few, and what README says of them."""
    found = {}
    for option, of, values in rows(text_of("README.md"), "| option | of | values |"):
        for command in re.findall(r"`(\w+)`", of):
            found.setdefault(command, []).append((option.strip("`"), values_in(values), values.replace("`", "")))
    return found


# ---- completion


def quoted(text):
    """Returns a text as one word of a shell."""
    return "'" + text.replace("'", "'\\''") + "'"


def bash():
    """Returns the completion for bash."""
    lines = [f"# Completion of bouwkamp for bash. {MADE_BY}", "_bouwkamp() {"]
    lines += ["    local words=() name", "    COMPREPLY=()", "    if ((COMP_CWORD == 1)); then"]
    lines += [f"        words=({' '.join(commands())})", "    elif ((COMP_CWORD % 2)); then"]
    lines += ["        # (behind an option comes its value)", '        case "${COMP_WORDS[1]} ${COMP_WORDS[COMP_CWORD - 1]}" in']
    for command, of in options().items():
        lines += [f"            '{command} {option}') words=({' '.join(values)}) ;;" for option, values, _ in of if values]
    lines += ["        esac", "    else", '        case "${COMP_WORDS[1]}" in']
    lines += [f"            {command}) words=({' '.join(it for it, _, _ in of)}) ;;" for command, of in options().items()]
    lines += ["        esac", "    fi", '    for name in "${words[@]}"; do', "        # (an option comes once)"]
    lines += ['        if [[ $name != --* || " ${COMP_WORDS[*]:2:COMP_CWORD-2} " != *" $name "* ]]; then']
    lines += ['            [[ $name == "${COMP_WORDS[COMP_CWORD]}"* ]] && COMPREPLY+=("$name")', "        fi", "    done", "}"]
    return "\n".join([*lines, "complete -F _bouwkamp bouwkamp", ""])


def zsh():
    """Returns the completion for zsh."""
    def described(pairs):
        return " ".join(quoted(f"{name}:{what}") for name, what in pairs)

    lines = ["#compdef bouwkamp", f"# Completion of bouwkamp for zsh. {MADE_BY}", "local -a found"]
    lines += ["if ((CURRENT == 2)); then", f"    found=({described((it, what) for it, (_, what) in commands().items())})"]
    lines += ["    _describe command found", "elif ((CURRENT % 2)); then", '    case "$words[2]" in']
    lines += [f"        {command}) found=({described((it, what) for it, _, what in of)}) ;;" for command, of in options().items()]
    lines += ["    esac", "    # (an option comes once)", "    local given", "    for given in ${words[3,CURRENT-1]}; do"]
    lines += ['        found=("${(@)found:#$given:*}")', "    done", "    ((#found)) && _describe option found", "else"]
    lines += ["    # (behind an option comes its value)", '    case "$words[2] $words[CURRENT-1]" in']
    for command, of in options().items():
        lines += [f"        '{command} {option}') compadd {' '.join(values)} ;;" for option, values, _ in of if values]
        lines += [f"        '{command} {option}') _message {quoted(what)} ;;" for option, values, what in of if not values]
    return "\n".join([*lines, "    esac", "fi", ""])


def fish():
    """Returns the completion for fish."""
    first = "test (count (commandline -opc)) -eq 1"
    lines = [f"# Completion of bouwkamp for fish. {MADE_BY}", "complete -c bouwkamp -f"]
    lines += [f"complete -c bouwkamp -n '{first}' -a {name} -d {quoted(what)}" for name, (_, what) in commands().items()]
    for command, of in options().items():
        for option, values, what in of:
            line = f"complete -c bouwkamp -n '__fish_seen_subcommand_from {command}' -x -l {option[2:]} -d {quoted(what)}"
            lines.append(line + (f" -a {quoted(' '.join(values))}" if values else ""))
    return "\n".join([*lines, ""])


# ---- the manual page


def roff(text):
    """Returns a line of a page as the manual page has it."""
    text = re.sub(r"\[([^\]\n]+)\]\([^()\s]+\)", r"\1", text).replace("\\", "\\e")
    parts = re.split(r"(`[^`]+`|\*\*[^*]+\*\*|\*[^*\s][^*]*\*)", text)
    for k, part in enumerate(parts):
        if k % 2:
            plain = part.strip("`*").replace("-", "\\-")
            parts[k] = f"\\f{'I' if part[0] == '*' and part[1] != '*' else 'B'}{plain}\\fR"
    return "".join(parts)


def filled(text):
    """Returns the lines of a paragraph, none of which is taken for a request."""
    lines = textwrap.wrap(roff(" ".join(text.split())), WIDTH, break_long_words=False, break_on_hyphens=False)
    return [re.sub(r"^([.'])", r"\\&\1", it) for it in lines]


def tagged(tag, text):
    """Returns the lines of a tag with what is behind it."""
    return [".TP", roff(tag), *filled(text)] if text else []


def section(text, head):
    """Returns what is under a heading, up to the next one."""
    found = re.search(rf"^#+ {re.escape(head)}\n(.*?)(?=^#|\Z)", text, re.DOTALL | re.MULTILINE)
    return found[1] if found else ""


def paragraphs(text):
    """Returns the paragraphs of a section that are prose: no tables and no blocks."""
    return [it for it in re.split(r"\n\s*\n", text.strip("\n")) if not it.startswith(("|", "    "))]


def examples(text):
    """Returns the commands of a section with what they print, for the program where it is installed."""
    found, is_shown = [], False
    for line in text.split("\n"):
        is_shown = line.startswith("    ") and (is_shown or line.startswith("    $ "))
        found += [line[4:].replace("./bouwkamp", "bouwkamp")] if is_shown else []
    return found


def shown(line):
    """Returns a line of a block as the manual page has it."""
    return ("\\&" if line.startswith((".", "'")) else "") + line.replace("\\", "\\e").replace("-", "\\-")


def without_links(text):
    """Returns a paragraph without the sentences that send to another page."""
    return " ".join(it for it in re.split(r"(?<=\.)\s+", text) if "](" not in it)


def manual():
    """Returns the manual page."""
    readme, known = text_of("README.md"), commands()
    tour, lines = section(readme, "A tour"), section(readme, "Lines and refusals")
    told = {name.strip("`").split()[0]: what for name, what, _, _ in rows(tour, "| command | what it answers | line | answer |") if name}
    made = [f'.\\" {MADE_BY}', f".TH BOUWKAMP 1 {DATE}", ".SH NAME", "bouwkamp \\- a workbench for squared rectangles", ".SH SYNOPSIS"]
    made += [".B bouwkamp", ".I command", ".RI [ option", ".IR value ]\\|.\\|.\\|."]
    made += [".SH DESCRIPTION", *filled(without_links(paragraphs(readme)[1])), ".SH COMMANDS"]
    for name, (form, what) in known.items():
        made += tagged(f"`{form}`", told.get(name, what))
    for it in paragraphs(tour):
        made += [".PP", *filled(it)]
    made += [".SH OPTIONS", *filled(paragraphs(section(readme, "Options"))[0])]
    for option, of, values in rows(readme, "| option | of | values |"):
        made += tagged(option, f"Of {of}: {values}.")
    first, *others = paragraphs(lines)
    made += [".SH LINES", *filled(first), *(it for text in others for it in (".PP", *filled(text)))]
    for text, when, _ in rows(lines, "| text | when | example |"):
        made += tagged(text, when)
    made += [".SH EXIT STATUS"]
    for status, when in rows(readme, "| status | when |"):
        made += tagged(f"`{status}`", when) if "launcher" not in when else []
    made += [it for text in paragraphs(section(readme, "Statuses")) for it in (".PP", *filled(text))]
    return "\n".join([*made, ".SH EXAMPLES", ".EX", *map(shown, examples(tour)), ".EE", ""])


# Each file that is made, with what makes it.
FILES = {
    "share/completions/bouwkamp.bash": bash,
    "share/completions/_bouwkamp": zsh,
    "share/completions/bouwkamp.fish": fish,
    "share/man/man1/bouwkamp.1": manual,
}
