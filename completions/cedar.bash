# Completions of `cedar` for bash 4 and later. tools/documents/completions wrote this from the help of the program: do not change it here.

# The subcommands.
_cedar_subcommands='validate authorize why ask check-parse explain help'

# Prints the options of a subcommand, or of the program where the name is empty. A comma is between the names of one.
_cedar_options() {
  case $1 in
    '') printf ' %s' -h,--help -V,--version ;;
    validate) printf ' %s' -s,--schema -p,--policies -l,--links --language --any-decimal --deny-warnings --report --quiet --diagnostics -h,--help ;;
    authorize) printf ' %s' -s,--schema -p,--policies -l,--links --language -e,--entities --any-decimal --entities-in-lines --explain-lines --quiet --diagnostics -h,--help ;;
    why) printf ' %s' -s,--schema -p,--policies -l,--links --language -e,--entities --any-decimal --all --json --quiet --diagnostics -h,--help ;;
    ask) printf ' %s' -s,--schema -p,--policies -l,--links --language -e,--entities --any-decimal --principal --action --resource -c,--context --request --quiet --diagnostics -h,--help ;;
    check-parse) printf ' %s' -p,--policies --language --quiet --diagnostics -h,--help ;;
    explain) printf ' %s' -h,--help ;;
  esac
}

# Prints what completes the value of an option of a subcommand: words, or `/` for files. Ends with 1 where it takes no value.
_cedar_value() {
  case "$1 $2" in
    'validate -s' | 'validate --schema') echo / ;;
    'validate -p' | 'validate --policies') echo / ;;
    'validate -l' | 'validate --links') echo / ;;
    'validate --language') echo '3 4' ;;
    'validate --report') echo 'human json' ;;
    'validate --diagnostics') echo 'human json none' ;;
    'authorize -s' | 'authorize --schema') echo / ;;
    'authorize -p' | 'authorize --policies') echo / ;;
    'authorize -l' | 'authorize --links') echo / ;;
    'authorize --language') echo '3 4' ;;
    'authorize -e' | 'authorize --entities') echo / ;;
    'authorize --diagnostics') echo 'human json none' ;;
    'why -s' | 'why --schema') echo / ;;
    'why -p' | 'why --policies') echo / ;;
    'why -l' | 'why --links') echo / ;;
    'why --language') echo '3 4' ;;
    'why -e' | 'why --entities') echo / ;;
    'why --diagnostics') echo 'human json none' ;;
    'ask -s' | 'ask --schema') echo / ;;
    'ask -p' | 'ask --policies') echo / ;;
    'ask -l' | 'ask --links') echo / ;;
    'ask --language') echo '3 4' ;;
    'ask -e' | 'ask --entities') echo / ;;
    'ask --principal') ;;
    'ask --action') ;;
    'ask --resource') ;;
    'ask -c' | 'ask --context') echo / ;;
    'ask --request') echo / ;;
    'ask --diagnostics') echo 'human json none' ;;
    'check-parse -p' | 'check-parse --policies') echo / ;;
    'check-parse --language') echo '3 4' ;;
    'check-parse --diagnostics') echo 'human json none' ;;
    *) return 1 ;;
  esac
}

# Prints what completes the argument of a subcommand at a place, from 0, in the same way.
_cedar_argument() {
  case "$1 $2" in
    'explain 0') ;;
    'help '*) echo 'validate authorize why ask check-parse explain help' ;;
  esac
}

# Prints the names of these options, but for those of which a name is given.
_cedar_left() {
  local names name is_given
  for names in $1; do
    is_given=
    for name in ${names//,/ }; do
      [[ $2 != *" $name "* ]] || is_given=yes
    done
    [[ -n $is_given ]] || printf '%s\n' ${names//,/ }
  done
}

_cedar() {
  local current=${COMP_WORDS[COMP_CWORD]} redirection='?([0-9&])[<>]*' IFS=$' \t\n'
  local subcommand= option= given=' ' place=0 at word completed=
  for ((at = 1; at < COMP_CWORD; at++)); do
    word=${COMP_WORDS[at]}
    if [[ $word == $redirection ]]; then
      option='<'
    elif [[ -n $option ]]; then
      # `--name=value` is three words.
      [[ $word == '=' ]] || option=
    elif [[ $word == -* ]]; then
      given+="$word "
      if _cedar_value "$subcommand" "$word" > /dev/null; then
        option=$word
      fi
    elif [[ -z $subcommand ]]; then
      subcommand=$word
    else
      ((place += 1))
    fi
  done
  if [[ $current == $redirection ]]; then
    option='<' current=
  elif [[ $current == '=' ]]; then
    current=
  fi

  if [[ $option == '<' ]]; then
    completed=/
  elif [[ -n $option ]]; then
    completed=$(_cedar_value "$subcommand" "$option")
  elif [[ -z $subcommand && $current != -* ]]; then
    completed=$_cedar_subcommands
  else
    [[ $current == -* ]] || completed=$(_cedar_argument "$subcommand" "$place")
    [[ -n $completed ]] || completed=$(_cedar_left "$(_cedar_options "$subcommand")" "$given")
  fi
  if [[ $completed == / ]]; then
    # Where this finds no file, since the word has quotes, bash looks for one.
    compopt -o filenames -o default 2> /dev/null || true
    mapfile -t COMPREPLY < <(compgen -f -- "$current")
  else
    mapfile -t COMPREPLY < <(compgen -W "$completed" -- "$current")
  fi
}

complete -F _cedar cedar
