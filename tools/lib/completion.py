"""Completion of the words of osekfit.py, for bash and zsh: the words themselves, then the options of a script, its choices, and files."""
import re

OPTION = re.compile(r"add_argument\('(--[a-z-]+)'")

BASH = '''# Words of osekfit for bash: source it, or put it into a folder of completions.
_osekfit() {
  local word=${COMP_WORDS[COMP_CWORD]} options=
  if [ "$COMP_CWORD" = 1 ]; then
    COMPREPLY=($(compgen -W "%(words)s" -- "$word"))
    return
  fi
  case ${COMP_WORDS[1]} in
%(cases)s
  esac
  case $word in
    -*) COMPREPLY=($(compgen -W "$options" -- "$word")) ;;
    *) COMPREPLY=($(compgen -f -- "$word")) ;;
  esac
}
complete -o filenames -F _osekfit %(names)s
'''

ZSH = '''#compdef %(names)s
# Words of osekfit for zsh: a file _osekfit in a folder of $fpath.
_osekfit() {
  local -a options
  if (( CURRENT == 2 )); then
    compadd -- %(words)s
    return
  fi
  case $words[2] in
%(cases)s
  esac
  case $words[CURRENT] in
    -*) compadd -- $options ;;
    *) _files ;;
  esac
}
_osekfit "$@"
'''


def options_of(source):
    """The options that the text of a script takes."""
    return OPTION.findall(source) + ['--help']


def completion(shell, names, words, options):
    """What a shell reads, for the names by which the command is called. The options are those of some of its words."""
    form = "    %s) options='%s' ;;" if shell == 'bash' else '    %s) options=(%s) ;;'
    cases = '\n'.join(form % (word, ' '.join(of)) for word, of in options.items())
    return {'bash': BASH, 'zsh': ZSH}[shell] % {'words': ' '.join(words), 'cases': cases, 'names': ' '.join(names)}
