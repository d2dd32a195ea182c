" Coloured Featherweight Java: classes, and apart from them features, constraints and marks.
if exists("b:current_syntax")
  finish
endif

syntax keyword fjStructure class extends
syntax keyword fjStatement return
syntax keyword fjSelf this super
syntax keyword fjOperator new
syntax keyword fjType Object

" A mark is the sign and a feature's name; blanks may stand between them.
syntax match fjMark /@\_s*\(!\_s*\)\?\K\k*/ contains=fjSign
syntax match fjSign /@\_s*!\?/ contained

" The line for format two, at the start of a line; elsewhere its word is a name.
syntax match fjFormat /^\s*format2\ze\_s*;/

" The feature line and the constraints, each up to its `;`.
syntax region fjFeatures matchgroup=fjModel start=/\<features\>/ matchgroup=fjEnd end=/;/ contains=fjFeature,fjComment
syntax region fjConstraint matchgroup=fjModel start=/\<constraint\>/ matchgroup=fjEnd end=/;/ contains=fjFeature,fjTruth,fjConnective,fjComment
syntax match fjFeature /\K\k*/ contained
syntax keyword fjTruth true false contained
syntax match fjConnective /<->\|->\|[!&|]/ contained

syntax region fjComment start=+//+ end=/$/ contains=fjTodo
syntax region fjComment start=+/\*+ end=+\*/+ contains=fjTodo
syntax keyword fjTodo TODO FIXME contained

highlight default link fjStructure Structure
highlight default link fjStatement Statement
highlight default link fjSelf Identifier
highlight default link fjOperator Operator
highlight default link fjType Type
highlight default link fjMark PreProc
highlight default link fjSign Special
highlight default link fjFormat Keyword
highlight default link fjModel Keyword
highlight default link fjFeature Constant
highlight default link fjTruth Boolean
highlight default link fjConnective Operator
highlight default link fjEnd Delimiter
highlight default link fjComment Comment
highlight default link fjTodo Todo

let b:current_syntax = "fj"
