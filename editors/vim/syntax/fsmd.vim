" Vim syntax of machines with datapath (*.fsmd): copy editors/vim/ftdetect and editors/vim/syntax to ~/.vim.
if exists("b:current_syntax")
  finish
endif

syntax iskeyword @,48-57,_
syntax keyword fsmdHead fsmd reset state
syntax keyword fsmdDeclaration input output local array port
syntax keyword fsmdTransition when goto emit
syntax keyword fsmdReserved start done
syntax match fsmdNumber /\<\d\+\>/
syntax match fsmdOperator /[-+*\/%=<>!]\|&&\|||/
syntax match fsmdState /\%(\<state\s\+\|\<goto\s\+\|\<reset\s\+\)\@<=\h\w*/
syntax match fsmdComment /#.*$/

highlight default link fsmdHead Structure
highlight default link fsmdDeclaration Type
highlight default link fsmdTransition Keyword
highlight default link fsmdReserved Error
highlight default link fsmdNumber Number
highlight default link fsmdOperator Operator
highlight default link fsmdState Function
highlight default link fsmdComment Comment

let b:current_syntax = "fsmd"
