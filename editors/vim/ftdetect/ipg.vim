autocmd BufNewFile,BufRead *.ipg setfiletype ipg
