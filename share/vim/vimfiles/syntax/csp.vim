" Vim syntax file
" Language: the part of CSPm that dlcheck reads, with its annotations (docs/LANGUAGE.md)
" It takes the place of Vim's own file for csp, if its folder stands before Vim's in 'runtimepath'.
if exists('b:current_syntax')
  finish
endif

syntax case match
syntax iskeyword @,48-57,_,39

syntax keyword dlcheckDeclaration channel datatype nametype assert
syntax keyword dlcheckConditional if then else
syntax keyword dlcheckFunction union inter diff
syntax keyword dlcheckOperator and or not
syntax keyword dlcheckBoolean true false
syntax keyword dlcheckProcess STOP SKIP
" reserved, and refused wherever they stand
syntax keyword dlcheckRefused external include lambda let module print subtype timed within
" as a keyword this word would be an option
syntax match dlcheckRefused '\<transparent\>'

syntax match dlcheckNumber '\<\d\+\>'
syntax match dlcheckSymbol '->\|<-\|\[\]\||\~|\|||\|\[\[\|\]\]\|{|\||}\|\.\.\|==\|!=\|<=\|>=\|[][=.{}|!<>?:@+*/%(),&\\;-]'
syntax match dlcheckRefusedSymbol '|||\|\[|\||\]\|\[>\|/\\\|<->\|[^\x00-\x7f]'
syntax match dlcheckProperty ':\s*\[\s*deadlock\s\+free\s*\(\[\s*FD\?\s*\]\s*\)\?\]'

syntax region dlcheckBlockComment start='{-' end='-}' contains=dlcheckBlockComment
syntax match dlcheckLineComment '--.*$'
" `--@` with another word than roles or resource is a comment, and mostly a slip
syntax match dlcheckNoAnnotation '--\s*@.*$'
syntax match dlcheckAnnotation '--@\s*\(roles\|resource\)\>.*$' contains=dlcheckAnnotationWord
syntax match dlcheckAnnotationWord '--@\s*\(roles\|resource\)\>' contained

highlight default link dlcheckDeclaration Statement
highlight default link dlcheckConditional Conditional
highlight default link dlcheckFunction Function
highlight default link dlcheckOperator Operator
highlight default link dlcheckBoolean Boolean
highlight default link dlcheckProcess Constant
highlight default link dlcheckRefused Error
highlight default link dlcheckNumber Number
highlight default link dlcheckSymbol Operator
highlight default link dlcheckRefusedSymbol Error
highlight default link dlcheckProperty Type
highlight default link dlcheckBlockComment Comment
highlight default link dlcheckLineComment Comment
highlight default link dlcheckNoAnnotation Todo
highlight default link dlcheckAnnotation Identifier
highlight default link dlcheckAnnotationWord PreProc

let b:current_syntax = 'csp'
