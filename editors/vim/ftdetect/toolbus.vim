autocmd BufNewFile,BufRead *.tb setfiletype toolbus
