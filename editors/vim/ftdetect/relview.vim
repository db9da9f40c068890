" Files that end in .rv are scripts of relview.
autocmd BufNewFile,BufRead *.rv setfiletype relview
