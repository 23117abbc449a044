" Vim syntax file
" Language: plans and bundles of humpipe (docs/PIPELINES.md; codes in docs/CODES.md)
if exists('b:current_syntax')
  finish
endif

syntax case match

" a plan: comments, the branch in front of the colon, commands behind it and behind bars
syntax match humpipeComment /^[ \t]*#.*$/
syntax match humpipeName /^[ \t]*\zs[a-z][a-z0-9_]\{0,31}:\ze\%([ \t|]\|$\)/ nextgroup=humpipeCommand,humpipeUnknown skipwhite
syntax match humpipeBar /|/ nextgroup=humpipeCommand,humpipeUnknown skipwhite
syntax match humpipeUnknown /[^ \t|']\+/ contained
syntax match humpipeCommand contained
      \ /\<\%(read\|assemble\|rid\|extract\|cleave\|yank\|ditto\|timebase\|context\|trans\|semits\|recip\|mint\)\ze\%([ \t|]\|$\)/
syntax match humpipeOption /[ \t]\zs-[A-Za-z]\+\ze\%([ \t|]\|$\)/
syntax match humpipeOption /[ \t]\zs'-[A-Za-z]\+'\ze\%([ \t|]\|$\)/
syntax match humpipeString /[ \t]\zs'[^']*'\ze\%([ \t|]\|$\)/
" an open quote, and a double quote, which doesn't quote
syntax match humpipeOpenQuote /[ \t]\zs'[^']*$/
syntax match humpipeDoubleQuote /"/

" a bundle: what follows the first line of a score is no plan
syntax region humpipeScore start=/^--- / end=/\%$/ contains=humpipeScoreName
syntax match humpipeScoreName /^--- .*$/ contained

highlight default link humpipeComment Comment
highlight default link humpipeName Identifier
highlight default link humpipeBar Operator
highlight default link humpipeCommand Statement
highlight default link humpipeUnknown Error
highlight default link humpipeOption Special
highlight default link humpipeString String
highlight default link humpipeOpenQuote Error
highlight default link humpipeDoubleQuote Error
highlight default link humpipeScore Normal
highlight default link humpipeScoreName Title

let b:current_syntax = 'humpipe'
