" The languages that the crates are written in: Rattle (Rust with contracts) and antt, its logic.
autocmd BufRead,BufNewFile *.rt setlocal filetype=rattle
autocmd BufRead,BufNewFile *.antt setlocal filetype=antt
