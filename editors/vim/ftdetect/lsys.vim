autocmd BufNewFile,BufRead *.lsys setfiletype lsys
