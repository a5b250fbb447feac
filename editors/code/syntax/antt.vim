" antt: definitions, the terms of contracts, and proofs.
if exists('b:current_syntax')
  finish
endif
syntax case match
syntax match anttName '\<[a-z_][A-Za-z0-9_'-]*'
syntax match anttType '\<[A-Z][A-Za-z0-9_'-]*'
syntax match anttNumber '\<[0-9]\+\>'
syntax match anttSign '[^A-Za-z0-9_ \t(){}\[\];.,"'-]\+'
" what a line begins with: a definition's name before its type
syntax match anttDefined '^\%(pub \)\?[a-z_][A-Za-z0-9_'-]*\ze \+:'
syntax keyword anttDeclaration abbrev record data class instance mod where
syntax keyword anttKeyword let in if then else with do use as mutual
syntax keyword anttVisible pub private
syntax keyword anttTactic search grind hlevel arith omega cc refl sym ap subst absurd
syntax match anttModule '\<[A-Z][A-Za-z0-9_]*\%(\.[A-Za-z0-9_+]\+\)\+'
" a hole
syntax match anttHole '\%(^\|[ (]\)\zs?[A-Za-z0-9_]*\ze\%([ );]\|$\)'
syntax match anttComment '\%(^\|\s\)\zs--.*$' contains=@Spell

highlight default link anttName Identifier
highlight default link anttType Type
highlight default link anttNumber Number
highlight default link anttSign Operator
highlight default link anttDefined Function
highlight default link anttDeclaration Structure
highlight default link anttKeyword Keyword
highlight default link anttVisible StorageClass
highlight default link anttTactic Special
highlight default link anttModule Include
highlight default link anttHole Error
highlight default link anttComment Comment

let b:current_syntax = 'antt'
