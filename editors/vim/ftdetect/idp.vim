autocmd BufRead,BufNewFile *.idp setfiletype idp
