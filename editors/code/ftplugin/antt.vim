" Comments, and the width of lines.
setlocal comments=:-- commentstring=--\ %s textwidth=0 expandtab shiftwidth=2
let b:undo_ftplugin = 'setlocal comments< commentstring< textwidth< expandtab< shiftwidth<'
