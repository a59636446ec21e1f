autocmd BufRead,BufNewFile *.ame setfiletype ame
