" Scripts of relview, in which case counts. The words are those of docs/language.md; editors/check compares them.
if exists("b:current_syntax")
  finish
endif

syntax case match
syntax iskeyword @,48-57,_

syntax keyword relviewCommand REL LET PRINT LIST COUNT TYPE DROP SNAP AT LOAD SAVE ALL ATOMIC COMMIT EXPLAIN
syntax keyword relviewProgram DECL PROD SUM BEG END RETURN
syntax keyword relviewControl WHILE DO OD IF THEN ELSE FI
syntax keyword relviewBase L O I Ln1 On1 L1n O1n dom ran trans refl epsi
syntax keyword relviewBase point atom init next inj empty unival
syntax keyword relviewBase less hasse quot
syntax keyword relviewBase syq eq incl ubd lbd least greatest sup inf
syntax match relviewDomain "\<\%(p-1\|p-2\|i-1\|i-2\)\>"
syntax match relviewNumber "\<\d\+\>"
syntax match relviewOperator "[-|&*\\/^]"
syntax match relviewDefinition "^\s*\zs\a\w*\ze\s*("
syntax match relviewFile "\"[^\"]\{1,255}\""
syntax match relviewComment "#.*$" contains=relviewTodo
syntax keyword relviewTodo TODO contained

highlight default link relviewCommand Statement
highlight default link relviewProgram Keyword
highlight default link relviewControl Conditional
highlight default link relviewBase Function
highlight default link relviewDomain Function
highlight default link relviewNumber Number
highlight default link relviewOperator Operator
highlight default link relviewDefinition Identifier
highlight default link relviewFile String
highlight default link relviewComment Comment
highlight default link relviewTodo Todo

let b:current_syntax = "relview"
