# Completion of ame, try and why, also as ./ame: `source PATH/editors/ame.bash`.

# tools/lists makes: words
_AME_COMMANDS='run bench sim replay check resume weak'
_AME_VIEWS='--trace --steps --store --counts --picture --events --journal --schedule'
_AME_OPTIONS='--workers --turns --slice'
declare -gA _AME_NUMBERS_OF=([run]='' [bench]='seed size' [sim]='seed' [replay]='' [check]='' [resume]='' [weak]='seed')
declare -gA _AME_OPTIONS_OF=([run]='--workers --turns --slice' [bench]='--workers --turns --slice' [sim]='--workers --turns --slice' [replay]='--workers --turns --slice' [check]='' [resume]='--workers --turns --slice' [weak]='--turns')
declare -gA _AME_FILES_OF=([run]='*.ame' [bench]='' [sim]='*.ame' [replay]='*' [check]='*' [resume]='*' [weak]='*.ame')
declare -gA _AME_VALUES=([seed]='0 1 65536' [size]='1 10 100 1000 4000' [--workers]='1 2 4 8 16 32' [--turns]='1 1000 10000 100000 1000000 4000000' [--slice]='1 10 100 1000' [--explain]='1 2 3 4 5 6 7 8 9 11')
# tools/lists: end

# Succeeds if a word is in a list of words.
_ame_has() {
  [[ " $1 " == *" $2 "* ]]
}

# Offers these words.
_ame_offer() {
  mapfile -t COMPREPLY < <(compgen -W "$*" -- "$cur")
}

# Offers files of this pattern, folders, and these words.
_ame_offer_files() {
  local hidden='.*' pattern=$1
  shift
  [[ $cur == .* ]] && hidden=
  compopt -o filenames 2>/dev/null
  mapfile -t COMPREPLY < <(compgen -d -X "$hidden" -- "$cur"; compgen -f -X "!$pattern" -- "$cur"; compgen -W "$*" -- "$cur")
}

# Offers what may follow a command: its numbers, options that are not given yet, a file if none is given, and these words.
_ame_offer_parts() {
  local command=${words[0]} option given offered=() numbers
  numbers=(${_AME_NUMBERS_OF[$command]})
  for given in "${words[@]:1}"; do
    [[ $given == [0-9]* ]] && numbers=("${numbers[@]:1}")
  done
  [[ $cur != -* && ${numbers[0]-} ]] && { _ame_offer "${_AME_VALUES[${numbers[0]}]}"; return; }
  for option in ${_AME_OPTIONS_OF[$command]}; do
    [[ " ${words[*]} " == *" $option"[\ =]* ]] || offered+=("$option")
  done
  # A command without options makes no run, and has no view and no certificate.
  [[ ${_AME_OPTIONS_OF[$command]} ]] && offered+=("$@")
  if [[ $file || ! ${_AME_FILES_OF[$command]} ]]; then
    _ame_offer "${offered[@]}"
  else
    _ame_offer_files "${_AME_FILES_OF[$command]}" "${offered[@]}"
  fi
}

_ame() {
  local program=${1##*/} cur=${COMP_WORDS[COMP_CWORD]} word last='' words=() others=() file='' rest=() at
  COMPREPLY=()
  # The words before the one at the cursor: redirections and certificates are left out, and an option's value stands in its word.
  for ((at = 1; at < COMP_CWORD; at++)); do
    word=${COMP_WORDS[at]}
    if [[ $last == = ]] || _ame_has "$_AME_OPTIONS" "$last"; then
      if [[ $word == = ]]; then last='='; continue; fi
      words[-1]+="=$word"
    elif [[ $last != [\<\>]* && $last != --certificate && $word != [\<\>]* && $word != --certificate ]]; then
      words+=("$word")
    fi
    last=$word
    [[ $word == --*=* ]] && last=
  done
  case $cur in
  [\<\>]*) last=$cur cur= ;;
  =) cur= ;;
  esac
  case $last in
  [\<\>]* | --certificate) compopt -o default 2>/dev/null; return ;;
  --explain) _ame_offer "${_AME_VALUES[--explain]}"; return ;;
  esac
  if [[ $last == = ]] || _ame_has "$_AME_OPTIONS" "$last"; then
    _ame_offer "${_AME_VALUES[${words[-1]}]-}"
    return
  fi
  case $program in
  why) others=($_AME_VIEWS) ;;
  ame) others=(--certificate) ;;
  esac
  for word in "${words[@]}"; do
    if _ame_has "$_AME_VIEWS" "$word"; then others=(); else rest+=("$word"); fi
  done
  words=("${rest[@]}")
  # A file may stand before the command.
  if [[ ${words[0]-} ]] && ! _ame_has "$_AME_COMMANDS" "${words[0]}"; then
    file=file words=("${words[@]:1}")
  fi
  if [[ ${words[0]-} ]]; then
    _ame_offer_parts "${others[@]}"
  elif [[ $file ]]; then
    _ame_offer $_AME_COMMANDS "${others[@]}"
  else
    [[ $program == why ]] && others+=(--explain)
    _ame_offer_files '*.ame' $_AME_COMMANDS "${others[@]}" --help --version
  fi
}

complete -F _ame ame try why
