"""The completion of the words for bash."""

from launcher.table import COMMANDS, OWN_OPTIONS

SCRIPT = """\
# bash completion of vepkhundi; it is made by ./vepkhundi completion
_vepkhundi() {{
  local word=${{COMP_WORDS[COMP_CWORD]}} command= place
  COMPREPLY=()
  for ((place = 1; place < COMP_CWORD; place++)); do
    case ${{COMP_WORDS[place]}} in
      --out) ((place++)) ;;
      -*) ;;
      *) command=${{COMP_WORDS[place]}}; break ;;
    esac
  done
  case $command in
    '') COMPREPLY=($(compgen -W '{own} {commands}' -- "$word")) ;;
    help) COMPREPLY=($(compgen -W '{commands}' -- "$word")) ;;
{cases}
  esac
}}
complete -o default -F _vepkhundi vepkhundi
"""


def completion():
    commands = " ".join(COMMANDS)
    own = " ".join(it.name for it in OWN_OPTIONS)
    with_options = [it for it in COMMANDS.values() if it.options]
    cases = (f"    {it.name}) {completes([option.name for option in it.options])} ;;" for it in with_options)
    return SCRIPT.format(own=own, commands=commands, cases="\n".join(cases))


def completes(words):
    return f"[[ $word == -* ]] && COMPREPLY=($(compgen -W '{' '.join(words)} --help' -- \"$word\"))"
