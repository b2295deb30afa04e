# Made by scripts/help_pages from what parcel_tool --help prints.
_parcel_tool_words() { COMPREPLY=($(compgen -W "$1" -- "$word")); }
_parcel_tool_files() {
  local name plain="${word//\\/}"
  plain="${plain#[\"\']}"
  compopt -o filenames 2> /dev/null
  while IFS= read -r name; do COMPREPLY+=("$name"); done < <(
    { compgen -f ${1:+-X "$1"} -- "$plain"; compgen -d -- "$plain"; } | sort -u)
}
_parcel_tool() {
  local word="${COMP_WORDS[COMP_CWORD]}" before="${COMP_WORDS[COMP_CWORD-1]}" options=
  COMPREPLY=()
  case "$word:$before" in
    =:*) word= ;;
    *:=) before="${COMP_WORDS[COMP_CWORD-2]}" ;;
  esac
  if [ "$COMP_CWORD" -eq 1 ]; then
    _parcel_tool_words 'area check export locate overlay part session explain help --hints -h --help -V --version'
    return
  fi
  case "$before" in
    --unit) _parcel_tool_words 'mm cm m'; return ;;
    --clerk) _parcel_tool_files ''; return ;;
    --workers) :; return ;;
    --out) _parcel_tool_files ''; return ;;
    --at) :; return ;;
    --points) _parcel_tool_files ''; return ;;
    --zones) _parcel_tool_files '!*.[sS][hH][pP]'; return ;;
    --journal) _parcel_tool_files ''; return ;;
    --desk) :; return ;;
  esac
  case "${COMP_WORDS[1]}" in
    help) _parcel_tool_words 'area check export locate overlay part session explain'; return ;;
    area) options='--unit --hints -h --help' ;;
    check) options='--unit --all --clerk --workers --hints -h --help' ;;
    export) options='--unit --out --force --clerk --workers --hints -h --help' ;;
    locate) options='--unit --at --points --clerk --workers --hints -h --help' ;;
    overlay) options='--unit --areas --clerk --workers --hints -h --help' ;;
    part) options='--all --unit --out --force --workers --hints -h --help' ;;
    session) options='--unit --zones --journal --clerk --desk --workers --hints -h --help' ;;
    explain) options='--hints -h --help' ;;
  esac
  case "$word" in
    -*) _parcel_tool_words "$options" ;;
    *) _parcel_tool_files '!*.[sS][hH][pP]' ;;
  esac
}
complete -F _parcel_tool parcel_tool
