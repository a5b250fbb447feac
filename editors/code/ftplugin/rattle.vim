" Comments, and the width of lines.
setlocal comments=s1:/*,mb:*,ex:*/,:///,://!,:// commentstring=//\ %s textwidth=0 expandtab shiftwidth=4
let b:undo_ftplugin = 'setlocal comments< commentstring< textwidth< expandtab< shiftwidth<'
