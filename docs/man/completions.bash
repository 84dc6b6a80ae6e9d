# Completions for bash of the venue's programs. Written by tools/manual.
#
# A line of the table is a program and its words: as they stand, `file`, a name of the config that stands among the words, or nothing that can be
# completed (-); `*` stands for more of the last one.
_lubweqad_forms='pegaudit verify file file file *
pegaudit trades file file
pegaudit summary file file
pegaudit chart file file SYMBOL
pegaudit book file file SYMBOL - *
pegaudit order file file SYMBOL - *
pegaudit report file file file *
pegaudit journal file -
pegaudit explain file
pegaudit --help
pegaudit --version
pegday file file
pegfeed file - - - file SYMBOL *
pegfeed --help
pegfeed --version
peglive file file - file --access file --stale -
peglive file file - file
peglive check file
peglive --help
peglive --version
pegmarket file - file
pegreplay file
pegreplay load - -
pegserve file - - file - - MEMBER *
pegvenue file file *
pegwatch file file - --stale - --public
pegwatch file
pegwatch --help
pegwatch --version'

_lubweqad() {
  local form word at config fits kinds so_far=("${COMP_WORDS[@]:0:COMP_CWORD}") this=${COMP_WORDS[COMP_CWORD]}
  COMPREPLY=()
  while IFS= read -r form; do
    read -r -a kinds <<<"$form"
    if [ "${kinds[0]}" != "${so_far[0]##*/}" ]; then continue; fi
    fits=yes config=
    for ((at = 1; at < COMP_CWORD; at++)); do
      word=${kinds[at]:-}
      if [ "$word" = file ] && [ -z "$config" ]; then config=${so_far[at]}; fi
      case $word in
        file | - | MEMBER | SYMBOL | "*") ;;
        "") if [[ $form != *'*' ]]; then fits=; fi ;;
        *) if [ "$word" != "${so_far[at]}" ]; then fits=; fi ;;
      esac
    done
    if [ -z "$fits" ]; then continue; fi
    word=${kinds[COMP_CWORD]:-}
    if [[ -z $word && $form == *'*' ]]; then word="*"; fi
    if [ "$word" = "*" ]; then word=${kinds[-2]}; fi
    case $word in
      file) mapfile -t -O "${#COMPREPLY[@]}" COMPREPLY < <(compgen -f -- "$this") ;;
      MEMBER | SYMBOL) mapfile -t -O "${#COMPREPLY[@]}" COMPREPLY < <(compgen -W "$(sed -n "s/^$word \\([^ ]*\\).*/\\1/p" -- "$config" 2>/dev/null)" -- "$this") ;;
      - | "") ;;
      *) mapfile -t -O "${#COMPREPLY[@]}" COMPREPLY < <(compgen -W "$word" -- "$this") ;;
    esac
  done <<<"$_lubweqad_forms"
}
complete -o filenames -F _lubweqad pegaudit pegday pegfeed peglive pegmarket pegreplay pegserve pegvenue pegwatch
