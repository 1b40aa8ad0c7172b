" Vim syntax file of the language of lsys. To install: copy editors/vim/* into ~/.vim.
" conformance/manual compares the words with those of the language.
if exists("b:current_syntax")
  finish
endif
syn case match

" A comment begins a line.
syn match lsysComment /^;.*/ contains=@Spell
syn match lsysCommand /^[ \t]*\%(axiom\|production\|drop\|ignore\|ignoring\|consider\|common\|schedule\|seed\|depth\|lattice\|lineage\|version\|hom\|string\|segments\|svg\|show\|bounds\|at\|growth\|undo\|redo\|quit\)\>/
" Words that only stand after these commands.
syn match lsysSetting /\%(^[ \t]*\%(lattice\|lineage\)[ \t]\+\)\@<=\%(square\|hexagonal\|cubic\|places\|names\)\>/
" A label, and the table before it.
syn match lsysLabel /\%(^[ \t]*\%(production\|hom\|drop\|ignoring\|consider\|common\)[ \t]\+\)\@<=\h\w*\%([ \t]\+\h\w*\)\?/
syn match lsysLabel /\%(^[ \t]*schedule[ \t]\+\)\@<=\h\w*\%([ \t]\+\h\w*\)*/
syn match lsysNumber /\%([A-Za-z_]\w*\)\@<!\<\d\+\>/
syn match lsysArrow /=>/
syn match lsysCut /%/
syn match lsysBranch /[][]/
syn match lsysCondition /[:@]/

hi def link lsysComment Comment
hi def link lsysCommand Statement
hi def link lsysSetting Constant
hi def link lsysLabel Identifier
hi def link lsysNumber Number
hi def link lsysArrow Operator
hi def link lsysCut Special
hi def link lsysBranch Delimiter
hi def link lsysCondition Operator

let b:current_syntax = "lsys"
