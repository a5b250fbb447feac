" Rattle: Rust, with the clauses of contracts, whose terms are antt's.
if exists('b:current_syntax')
  finish
endif
runtime! syntax/rust.vim
unlet! b:current_syntax
syntax include @rattleTerm syntax/antt.vim
unlet! b:current_syntax

" a clause's head, with its name, up to the brace of its term
syntax match rattleClauseHead '^\s*\%(requires\|ensures\|ghost\)\*\?\%(\s\+[A-Za-z_][A-Za-z0-9_-]*\)*\%(\s*[=:]\)\?\ze\s*{' nextgroup=rattleTerms skipwhite
syntax region rattleTerms matchgroup=rattleClause start='{' end='}' contained contains=@rattleTerm,rattleBraces
syntax region rattleBraces start='{' end='}' contained transparent contains=@rattleTerm,rattleBraces
syntax region rattleUse matchgroup=rattleClause start='^\s*ghost use' end=';' contains=@rattleTerm,rattleBraces

highlight default link rattleClause PreProc
highlight default link rattleClauseHead PreProc

let b:current_syntax = 'rattle'
