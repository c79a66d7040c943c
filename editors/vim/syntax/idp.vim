" Vim syntax file: knowledge bases of idp
if exists("b:current_syntax")
  finish
endif

syntax keyword idpBlock vocabulary theory structure term procedure
syntax keyword idpDeclaration type isa constructed from
syntax keyword idpType int nat
syntax keyword idpTruth true false
syntax keyword idpAggregate sum min max
syntax match idpNumber "\<[0-9]\+\>"
syntax match idpMark "<\(ct\|cf\)>"
syntax match idpOperator "<=>\|=>\|<=\|=<\|>=\|\~=\|->\|\.\.\|[~&|=<>+*!?#-]"
syntax match idpComment "//.*$" contains=idpTodo
syntax region idpComment start="/\*" end="\*/" contains=idpTodo
syntax keyword idpTodo contained TODO FIXME

highlight default link idpBlock Keyword
highlight default link idpDeclaration Statement
highlight default link idpType Type
highlight default link idpTruth Boolean
highlight default link idpAggregate Function
highlight default link idpNumber Number
highlight default link idpMark Special
highlight default link idpOperator Operator
highlight default link idpComment Comment
highlight default link idpTodo Todo

let b:current_syntax = "idp"
