# Sourced: what the launcher `dos` says of words beyond what the program does. Each call below takes
# the words, and prints a line, or nothing.

# Of each command, its options with what their values are: LOW-HIGH, a file, a scheme, or a text.
declare -A options_of=(
  [run]='--log=file --quantum=16-65536 --rounds=1-1000000 --frames=16-16384 --workers=1-32
    --scheme=scheme --signals=signals --clock-from=number --clock-step=number'
  [replay]='--log=file --workers=1-32 --scheme=scheme'
  [inspect]=''
  [gen]='--number=number --threads=1-32 --workers=1-32'
  [migrate]='--log=file --to=file'
  [trace]='--log=file --workers=1-32'
  [debug]='--log=file --workers=1-32'
  ['save']='--log=file --round=1-1000000 --to=file --workers=1-32'
  [resume]='--log=file --from=file --workers=1-32'
)

# What the option $1 of the command $2 takes, or nothing where it has no such option.
kind_of() {
  local option
  for option in ${options_of[$2]}; do
    [ "${option%%=*}" = "$1" ] && { echo "${option#*=}"; return; }
  done
}

# Why the text $1 isn't of the kind $2, or nothing.
why_not() {
  local post low=${2%-*} high=${2#*-}
  case $2 in
    file) [ -n "$1" ] || echo "a file's name" ;;
    scheme) case $1 in ownership|buffered) ;; *) echo 'ownership or buffered' ;; esac ;;
    signals)
      for post in ${1//,/ } ''; do
        [[ $post =~ ^$|^[1-9][0-9]*:[0-9]+:([1-9]|[12][0-9]|3[01])$ ]] && continue
        echo 'R:P:S,.. with a round, a process and a signal of 1 to 31'
        return
      done ;;
    number) [[ $1 =~ ^(0|[1-9][0-9]{0,19})$ ]] || echo 'a decimal number' ;;
    *)
      [[ $1 =~ ^[1-9][0-9]{0,8}$ ]] && [ "$1" -ge "$low" ] && [ "$1" -le "$high" ] && return
      echo "a number from $low to $high" ;;
  esac
}

# Which word isn't one, of words that ask for nothing.
wrong_word() {
  local command=${1-} word value kind why names=0 given=' ' is_open=1
  [ $# -gt 0 ] || {
    echo 'a command is wanted: run, replay, inspect, gen, migrate, trace, save, resume or debug'
    return
  }
  [ -n "$command" ] && [ "${options_of[$command]+known}" ] || {
    echo "$command is no command: these are run, replay, inspect, gen, migrate, trace, save, resume" \
      "and debug"
    return
  }
  shift
  while [ $# -gt 0 ]; do
    word=$1
    shift
    case $is_open$word in
      1--) is_open= ; continue ;;
      1--*) ;;
      1-?*) echo "$word is no option: they begin with two dashes"; return ;;
      *) names=$((names + 1)); continue ;;
    esac
    kind=$(kind_of "${word%%=*}" "$command")
    [ "$kind" ] || { echo "${word%%=*} is no option of $command"; return; }
    case $word in
      *=*) value=${word#*=} ;;
      *) [ $# -gt 0 ] || { echo "$word wants a value behind it"; return; }
        value=$1; shift ;;
    esac
    word=${word%%=*}
    why=$(why_not "$value" "$kind")
    [ -z "$why" ] || { echo "$word takes $why, and not $value"; return; }
    case $given in *" $word "*) echo "$word is given twice"; return ;; esac
    given+="$word "
    [ "$names" -eq 0 ] || { echo "$word stands behind a name: options come first"; return; }
  done
  case $command in
    run|replay|trace|debug)
      [[ $given = *' --log '* ]] || { echo "$command wants --log and the file of the log"; return; } ;;
    gen)
      [[ $given = *' --number '* && $given = *' --threads '* ]] ||
        { echo 'gen wants --number and --threads'; return; } ;;
    migrate)
      [[ $given = *' --log '* && $given = *' --to '* ]] ||
        { echo 'migrate wants --log and --to, each with a file'; return; } ;;
    save)
      [[ $given = *' --log '* && $given = *' --round '* && $given = *' --to '* ]] ||
        { echo 'save wants --log, --round and --to'; return; } ;;
    resume)
      [[ $given = *' --log '* && $given = *' --from '* ]] ||
        { echo 'resume wants --log and --from, each with a file'; return; } ;;
  esac
  case $command$names in
    gen0|migrate0|resume0|inspect1|run[1-8]|replay[1-8]|trace[1-8]|save[1-8]|debug[1-8]) ;;
    gen*|migrate*|resume*) echo "$command takes no names" ;;
    inspect*) echo 'inspect takes one name' ;;
    *0) echo "$command wants the name of a file" ;;
    *) echo "$command takes at most 8 names" ;;
  esac
}

# Which file `run`, `migrate` or `save` would write a log or a group over, where there is such a file
# and it is none: it doesn't begin as one does.
no_place() {
  local file= option magic=DPGL kind=log
  case ${1-} in
    run) option=--log ;;
    migrate) option=--to ;;
    save) option=--to magic=DPGS kind='saved group' ;;
    *) return ;;
  esac
  shift
  while [ $# -gt 0 ]; do
    case $1 in
      --) break ;;
      "$option") file=${2-} ;;
      "$option"=*) file=${1#"$option"=} ;;
    esac
    case $1 in --*=*) shift ;; --*) shift; [ $# -eq 0 ] || shift ;; *) shift ;; esac
  done
  [ -n "$file" ] && [ -f "$file" ] && [ -s "$file" ] || return
  [ "$(head -c 4 -- "$file" 2> /dev/null | tr '\0' ' ')" = $magic ] ||
    printf '%s\n' "$file is a file that isn't a $kind"
}
