autocmd BufRead,BufNewFile *.tig setfiletype tiger
