# shellcheck shell=bash
@HEAD@

_dlcheck_forms=(
@FORMS@
)
# of the repository alone
_dlcheck_local=(
@LOCAL@
)

# The kinds of the word that may follow these.
_dlcheck_kinds() {
  local form kinds word at forms=("${_dlcheck_forms[@]}")
  [[ $program == */* && -f ${program%/*}/crates.txt ]] && forms+=("${_dlcheck_local[@]}")
  for form in "${forms[@]}"; do
    read -ra kinds <<<"$form"
    # as many more of the last one
    if [ "${kinds[-1]}" = .. ]; then
      unset 'kinds[-1]'
      while [ ${#kinds[@]} -le $# ]; do kinds+=("${kinds[-1]}"); done
    fi
    at=0
    for word; do
      case ${kinds[at]:-} in
        '') continue 2 ;;
        RULE) case $word in @RULE_PATTERN@) ;; *) continue 2 ;; esac ;;
        [[:upper:]]*) ;;
        "$word") ;;
        *) continue 2 ;;
      esac
      at=$((at + 1))
    done
    echo "${kinds[at]:-}"
  done | sort -u
}

# Files with this end and folders, or all files where there is none.
_dlcheck_files() {
  local found=()
  mapfile -t found < <(
    compgen -f -X "!*$1" -- "$current"
    compgen -d -- "$current"
  )
  [ ${#found[@]} -gt 0 ] || mapfile -t found < <(compgen -f -- "$current")
  [ ${#found[@]} -eq 0 ] || COMPREPLY+=("${found[@]}")
}

_dlcheck() {
  local current=${COMP_WORDS[COMP_CWORD]} program=${COMP_WORDS[0]/#\~/$HOME} kind words=()
  COMPREPLY=()
  # as the shell reads it
  case $current in [\"\']*) current=${current:1} ;; *) current=${current//\\/} ;; esac
  while read -r kind; do
    case $kind in
      RULE) words+=(@RULES@) ;;
      FAMILY) words+=(@FAMILIES@) ;;
      SCRIPT | SPEC) _dlcheck_files .csp ;;
      FILE.html) _dlcheck_files .html ;;
      DIR) mapfile -t -O ${#COMPREPLY[@]} COMPREPLY < <(compgen -d -- "$current") ;;
      '' | [[:upper:].]*) ;;
      *) words+=("$kind") ;;
    esac
  done < <(_dlcheck_kinds "${COMP_WORDS[@]:1:COMP_CWORD - 1}")
  mapfile -t -O ${#COMPREPLY[@]} COMPREPLY < <(compgen -W "${words[*]}" -- "$current")
}

complete -o filenames -F _dlcheck dlcheck ./dlcheck
