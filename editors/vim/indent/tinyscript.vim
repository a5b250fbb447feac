" Indents TinyScript: what is inside a block by 'shiftwidth', and so the further lines of a statement.
if exists('b:did_indent')
  finish
endif
let b:did_indent = 1
setlocal indentexpr=TinyScriptIndent(v:lnum) indentkeys=!^F,o,O,0=end,0=else,0=next nocindent nosmartindent nolisp
let b:undo_indent = 'setlocal indentexpr< indentkeys< cindent< smartindent< lisp<'
if exists('*TinyScriptIndent')
  finish
endif

" A line without its comment.
function! s:Code(row) abort
  return substitute(getline(a:row), '!.*$', '', '')
endfunction

" The nearest line before this one that has code; 0 if there is none.
function! s:Before(row) abort
  let row = prevnonblank(a:row - 1)
  while row > 0 && s:Code(row) !~# '\S'
    let row = prevnonblank(row - 1)
  endwhile
  return row
endfunction

" Whether the statement of the first text goes on in the second one.
function! s:GoesOn(before, code) abort
  return a:before =~# '[-+*/%=<>,(\[]\s*$' || a:before =~# '\<\%(and\|or\|not\|to\|step\|shared\|private\|buffer\|for\|end\|next\|do\)\s*$'
        \ || a:before =~# '\%(\<end\s\+\)\@<!\<\%(if\|while\|proc\)\s*$' || a:code =~# '^\s*\%([-+*/%=<>,;)\]]\|\%(and\|or\|to\|step\|then\)\>\)'
endfunction

" How many blocks a text closes by its first words, and how many more it opens than it closes behind these.
function! s:Blocks(code) abort
  let [closed, opened, head, at] = [0, 0, 1, 0]
  while 1
    let [word, _, at] = matchstrpos(a:code, '\<[A-Za-z_]\w*\>\|\S', at)
    if word ==# ''
      return [closed, opened]
    elseif word ==# 'end' || word ==# 'next'
      let at = matchend(a:code, '^\s*\w\+', at) > 0 ? matchend(a:code, '^\s*\w\+', at) : at
      let [closed, opened] = head ? [closed + 1, opened] : [closed, opened - 1]
    elseif word ==# 'else'
      let [closed, opened, head] = head ? [closed + 1, opened + 1, 0] : [closed, opened, 0]
    else
      let head = 0
      let is_head = word ==# 'proc' && a:code[at :] =~# '^\s\+[A-Za-z_]\w*\s*('
      let opened += is_head || index(['if', 'for', 'while'], word) >= 0
    endif
  endwhile
endfunction

function! TinyScriptIndent(row) abort
  let code = s:Code(a:row)
  let first = s:Before(a:row)
  if first == 0
    return 0
  endif
  let text = s:Code(first)
  let goes_on = s:GoesOn(text, code)
  " the first line of the statement that ends just before, and all of its text
  let row = s:Before(first)
  while row > 0 && s:GoesOn(s:Code(row), s:Code(first))
    let first = row
    let text = s:Code(row) . ' ' . text
    let row = s:Before(row)
  endwhile
  let level = goes_on ? 1 : s:Blocks(text)[1] - s:Blocks(code)[0]
  return max([0, indent(first) + level * shiftwidth()])
endfunction
