#compdef dlcheck
@HEAD@

local -a forms kinds wanted
local form word kind program=${words[1]/#\~/$HOME}
integer at
forms=(
@FORMS@
)
if [[ $program == */* && -f ${program%/*}/crates.txt ]]; then
  forms+=(
@LOCAL@
  )
fi
# the kinds of the word that may follow those before the cursor
for form in $forms; do
  kinds=(${(s: :)form})
  if [[ $kinds[-1] == .. ]]; then
    shift -p kinds
    while (( $#kinds < CURRENT - 1 )); do kinds+=($kinds[-1]); done
  fi
  at=0
  for word in "${(@)words[2,CURRENT-1]}"; do
    (( ++at ))
    case $kinds[at] in
      ('') continue 2 ;;
      (RULE) [[ $word == (@RULE_PATTERN@) ]] || continue 2 ;;
      ([[:upper:]]*) ;;
      (*) [[ $word == $kinds[at] ]] || continue 2 ;;
    esac
  done
  wanted+=($kinds[at+1])
done
for kind in ${(u)wanted}; do
  case $kind in
    (RULE) compadd -- @RULES@ ;;
    (FAMILY) compadd -- @FAMILIES@ ;;
    (SCRIPT|SPEC) _files -g '*.csp' ;;
    (FILE.html) _files -g '*.html' ;;
    (DIR) _files -/ ;;
    ([[:upper:]]*) ;;
    (*) compadd -- $kind ;;
  esac
done
