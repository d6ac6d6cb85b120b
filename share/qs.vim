" Scripts of SCOOP separate blocks, which qs plays.
if exists("b:current_syntax")
  finish
endif
syntax keyword qsKeyword object client template separate if else repeat leave
syntax keyword qsKind account buffer grid
syntax match qsOperation "\.\s*\zs\(deposit\|withdraw\|balance\|refused\|put\|drop\|take\|front\|size\|set\|add\|fill\|get\|row\)\ze\s*("
syntax match qsNumber "\<\d\+\>"
syntax match qsOperator "[-+*<>=!]"
syntax match qsComment "#.*$"
highlight default link qsKeyword Keyword
highlight default link qsKind Type
highlight default link qsOperation Function
highlight default link qsNumber Number
highlight default link qsOperator Operator
highlight default link qsComment Comment
let b:current_syntax = "qs"
