" Files that end in .job are qtc's.
autocmd BufRead,BufNewFile *.job setfiletype qtcjob
