"""The manual page and the completion of words in bash, from the table that --help shows."""
import argparse

HEAD = """.TH DARTELM 1
.SH NAME
dartelm \\- a sender's chip at the bench, in plain words and units
.SH SYNOPSIS
.B dartelm
.I COMMAND
.RI [ WORDS ]
.SH DESCRIPTION
"""
FILES = """.SH SEE ALSO
docs/BENCH.md has each command with an example, docs/REFUSALS.md each refusal, docs/JSON.md the names of
.BR \\-\\-json .
"""
BASH = """# Completion of dartelm's words in bash: eval "$(dartelm --completion)"
_dartelm() {
    local word="${COMP_WORDS[COMP_CWORD]}" before="${COMP_WORDS[COMP_CWORD - 1]}" words=
    if [ "$COMP_CWORD" -eq 1 ]; then
        COMPREPLY=($(compgen -W "%(commands)s %(options)s" -- "$word"))
        return
    fi
    case "$before" in
%(choices)s        *)
            [[ $word == -* ]] && case "${COMP_WORDS[1]}" in
%(own)s            esac
            ;;
    esac
    [ -n "$words" ] && COMPREPLY=($(compgen -W "$words" -- "$word"))
}
complete -o default -F _dartelm dartelm
"""


def commands_of(made):
    """Each command's name, what it does, and its parser."""
    (table,) = [action for action in made._actions if isinstance(action, argparse._SubParsersAction)]
    about = {action.dest: action.help for action in table._choices_actions}
    return [(name, about[name], parser) for name, parser in table.choices.items()]


def escaped(text):
    return text.replace("\\", "\\e").replace("-", "\\-").replace("%%", "%")


def entry(action):
    """An option or a word, and its help."""
    value = action.metavar or ("|".join(map(str, action.choices)) if action.choices else None)
    names = ", ".join(f"\\fB{escaped(name)}\\fR" for name in action.option_strings)
    shown = " ".join(part for part in (names, f"\\fI{escaped(value)}\\fR" if value and action.nargs != 0 else "") if part)
    return f".TP\n{shown}\n{escaped(action.help or '')}\n"


def page(made):
    parts = [HEAD, escaped(made.description) + "\n", ".SH OPTIONS\n"]
    parts += [entry(action) for action in made._actions if action.option_strings]
    parts.append(".SH COMMANDS\n")
    for name, about, parser in commands_of(made):
        parts.append(f".SS {name}\n{escaped(about[:1].upper() + about[1:])}.\n")
        parts += [entry(action) for action in parser._actions if "-h" not in action.option_strings]
    return "".join(parts) + FILES


def completion(made):
    choices, own = {}, []
    for name, _, parser in commands_of(made):
        options = [option for action in parser._actions for option in action.option_strings]
        own.append(f'                {name}) words="{" ".join(options)}" ;;\n')
        for action in parser._actions:
            if action.choices and action.option_strings:
                choices[action.option_strings[-1]] = " ".join(map(str, action.choices))
    return BASH % {
        "commands": " ".join(name for name, *_ in commands_of(made)),
        "options": " ".join(option for action in made._actions for option in action.option_strings),
        "choices": "".join(f'        {option}) words="{words}" ;;\n' for option, words in choices.items()),
        "own": "".join(own),
    }
