" Files of scripts are named NAME.script, or NAME.qs.
autocmd BufRead,BufNewFile *.script,*.qs set filetype=qs
