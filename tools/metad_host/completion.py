"""Completion of the tool's words and options, for bash and zsh."""
from __future__ import annotations

import sys
from typing import Any

from .faults import Missing
from .progress import Progress

BASH = r"""# bash completion of %(name)s: source <(%(name)s completion bash)
_%(function)s() {
  local word options
  COMPREPLY=()
  if [ "$COMP_CWORD" -eq 1 ]; then
    COMPREPLY=($(compgen -W "%(words)s help --help --version" -- "${COMP_WORDS[1]}"))
    return
  fi
  word=${COMP_WORDS[COMP_CWORD]}
  case ${COMP_WORDS[1]} in
%(cases)s
    help) COMPREPLY=($(compgen -W "%(words)s" -- "$word")); return ;;
    completion) COMPREPLY=($(compgen -W "bash zsh" -- "$word")); return ;;
    *) options= ;;
  esac
  case $word in
    -*) COMPREPLY=($(compgen -W "$options --help" -- "$word")) ;;
    *) COMPREPLY=($(compgen -f -- "$word")) ;;
  esac
}
complete -o filenames -F _%(function)s %(name)s
"""


def run(given: Any, progress: Progress) -> int:
    """Prints the completion for a shell."""
    from .words import WORDS

    if given.shell not in ("bash", "zsh"):
        raise Missing("completion is there for bash and zsh, not for %s" % given.shell)
    name = progress.name
    function = "".join(char if char.isalnum() else "_" for char in name)
    progress.end()
    if given.shell == "bash":
        cases = "\n".join(
            "    %s) options=%s ;;" % (word, quoted(" ".join(about.options)))
            for word, about in WORDS.items()
            if word != "completion"
        )
        sys.stdout.write(
            BASH % {"name": name, "function": function, "words": " ".join(WORDS), "cases": cases}
        )
    else:
        sys.stdout.write(zsh(name, function))
    sys.stdout.flush()
    return 0


def quoted(text: str) -> str:
    """A word of a shell."""
    return "'%s'" % text.replace("'", "'\\''")


def zsh(name: str, function: str) -> str:
    """The completion for zsh."""
    from .words import OPTIONS, WORDS

    lines = [
        "#compdef %s" % name,
        "# zsh completion of %s: a file _%s in a folder of fpath, or: source <(%s completion zsh)"
        % (name, name, name),
        "_%s() {" % function,
        "  local -a commands",
        "  commands=(",
    ]
    lines += [
        "    %s" % quoted("%s:%s" % (word, about.answers.replace(":", "\\:")))
        for word, about in WORDS.items()
    ]
    lines += [
        "    'help:what a word takes'",
        "  )",
        "  if (( CURRENT == 2 )); then",
        "    _describe -t commands word commands",
        "    return",
        "  fi",
        "  local word=$words[2]",
        "  shift words",
        "  (( CURRENT-- ))",
        "  case $word in",
    ]
    for word, about in WORDS.items():
        options = []
        for option in about.options:
            takes = OPTIONS[option]
            text = takes["help"].replace("[", "(").replace("]", ")").replace(":", ",")
            metavar = takes.get("metavar")
            ending = (
                ""
                if metavar is None
                else ":%s:%s"
                % (metavar.lower(), "_files" if metavar in ("FILE", "PROGRAM") else "")
            )
            options.append(quoted("%s[%s]%s" % (option, text, ending)))
        rest = "'*: :(bash zsh)'" if word == "completion" else "'*:file:_files'"
        lines.append("    %s) _arguments %s ;;" % (word, " ".join(options + [rest])))
    lines += [
        "    help) _describe -t commands word commands ;;",
        "  esac",
        "}",
        'if [ "$funcstack[1]" = _%s ]; then _%s "$@"; else compdef _%s %s; fi'
        % (function, function, function, name),
    ]
    return "\n".join(lines) + "\n"
