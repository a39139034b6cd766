" Vim syntax of programs for fsmd compile (*.prog): copy editors/vim/ftdetect and editors/vim/syntax to ~/.vim.
if exists("b:current_syntax")
  finish
endif

syntax iskeyword @,48-57,_
syntax keyword programHead prog
syntax keyword programDeclaration input output local array
syntax keyword programStatement if else while
syntax keyword programReserved fsmd reset state when goto start done emit port
syntax match programNumber /\<\d\+\>/
syntax match programOperator /[-+*\/%=<>!]\|&&\|||/
syntax match programComment /#.*$/

highlight default link programHead Structure
highlight default link programDeclaration Type
highlight default link programStatement Keyword
highlight default link programReserved Error
highlight default link programNumber Number
highlight default link programOperator Operator
highlight default link programComment Comment

let b:current_syntax = "fsmd_program"
