# Sourced: splits a text into words as a shell does, without doing anything else with it.

# Sets the array `words` to the words of $1. Within '..' all characters stand for themselves; within
# ".." and outside \ has the next one stand for itself.
split_words() {
  local text=$1 word='' quote='' is_word='' i character
  words=()
  for ((i = 0; i < ${#text}; i++)); do
    character=${text:i:1}
    if [ "$quote" ] && [ "$character" = "$quote" ]; then
      quote=''
    elif [ "$character" = \\ ] && [ "$quote" != \' ]; then
      i=$((i + 1)) word+=${text:i:1} is_word=1
    elif [ "$quote" ]; then
      word+=$character
    else
      case $character in
        \'|\") quote=$character is_word=1 ;;
        ' '|$'\t'|$'\n') [ -z "$is_word" ] || words+=("$word"); word='' is_word='' ;;
        *) word+=$character is_word=1 ;;
      esac
    fi
  done
  [ -z "$is_word" ] || words+=("$word")
}
