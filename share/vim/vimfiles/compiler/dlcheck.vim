" :compiler dlcheck, then :make, puts the findings of dlcheck in the current script into the quickfix list.
if exists("current_compiler")
  finish
endif
let current_compiler = "dlcheck"

if exists(":CompilerSet") != 2
  command -nargs=* CompilerSet setlocal <args>
endif

CompilerSet makeprg=dlcheck\ --lines\ --any\ %:S
CompilerSet errorformat=%f:%l:%c:\ %m
