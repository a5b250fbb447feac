" TinyScript: comments, keywords, numbers, buffers, calls and signs.
if exists('b:current_syntax')
  finish
endif
syntax case match
syntax match tinyscriptName '\<[A-Za-z_][A-Za-z0-9_]*\>'
" a name before '(' is called, one before '[' is a buffer
syntax match tinyscriptCall '\<[A-Za-z_][A-Za-z0-9_]*\>\ze\s*('
syntax match tinyscriptBuffer '\<[A-Za-z_][A-Za-z0-9_]*\>\ze\s*\['
syntax keyword tinyscriptDeclaration shared private buffer
syntax keyword tinyscriptConditional if then else end
syntax keyword tinyscriptRepeat for to step next while
syntax keyword tinyscriptOperatorWord and or not
syntax keyword tinyscriptBuiltin size clear msg
" in the dialect with procedures 'proc' and 'do' are keywords; elsewhere they are names
syntax match tinyscriptProcedure '\<proc\>\ze\s\+[A-Za-z_][A-Za-z0-9_]*\s*('
syntax match tinyscriptProcedure '\(\<end\s\+\)\@<=proc\>'
syntax match tinyscriptProcedure '\<do\>\ze\s\+[A-Za-z_][A-Za-z0-9_]*\s*('
syntax match tinyscriptNumber '\<[0-9]\+\>'
" a literal is at most 65535, and no letter follows it
syntax match tinyscriptBadNumber '\<0*\(6553[6-9]\|655[4-9][0-9]\|65[6-9][0-9]\{2}\|6[6-9][0-9]\{3}\|[7-9][0-9]\{4}\|[1-9][0-9]\{5,}\)\>'
syntax match tinyscriptBadNumber '\<[0-9]\+[A-Za-z_][A-Za-z0-9_]*'
syntax match tinyscriptSign '[-+*/%=<>;,()\[\]]'
syntax match tinyscriptComment '!.*$' contains=@Spell

highlight default link tinyscriptName Identifier
highlight default link tinyscriptCall Function
highlight default link tinyscriptBuffer Structure
highlight default link tinyscriptDeclaration Type
highlight default link tinyscriptConditional Conditional
highlight default link tinyscriptRepeat Repeat
highlight default link tinyscriptOperatorWord Operator
highlight default link tinyscriptBuiltin Keyword
highlight default link tinyscriptProcedure Define
highlight default link tinyscriptNumber Number
highlight default link tinyscriptBadNumber Error
highlight default link tinyscriptSign Operator
highlight default link tinyscriptComment Comment
let b:current_syntax = 'tinyscript'
