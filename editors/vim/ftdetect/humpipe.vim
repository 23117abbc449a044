" plans and bundles of humpipe, and Humdrum scores
autocmd BufRead,BufNewFile *.hpl,*.hbundle setfiletype humpipe
autocmd BufRead,BufNewFile *.krn,*.KRN setfiletype humdrum
