" Vim syntax file
" Language: Humdrum scores (docs/SYNTAX.md)
if exists('b:current_syntax')
  finish
endif

syntax case match
syntax sync minlines=1

syntax match humdrumNote /\%(^\|\t\)\@<=[^!*=\t][^\t]*/ contains=humdrumPitch,humdrumDuration,humdrumRest
syntax match humdrumNull /\%(^\|\t\)\@<=\.\ze\%(\t\|$\)/
syntax match humdrumDuration /\d\+\%(%\d\+\)\?\.*/ contained
syntax match humdrumPitch /\([a-gA-G]\)\1*[#n-]*/ contained
syntax match humdrumRest /r/ contained
syntax match humdrumBar /\%(^\|\t\)\@<=[=][^\t]*/
syntax match humdrumTandem /\%(^\|\t\)\@<=\*[^\t]*/
syntax match humdrumPath /\%(^\|\t\)\@<=\*[-+^vx]\ze\%(\t\|$\)/
syntax match humdrumExclusive /\%(^\|\t\)\@<=\*\*[^\t]*/
syntax match humdrumComment /\%(^\|\t\)\@<=![^\t]*/
syntax match humdrumGlobal /^!!.*$/
syntax match humdrumReference /^!!![^:]*:/ containedin=humdrumGlobal contained

highlight default link humdrumDuration Number
highlight default link humdrumPitch Identifier
highlight default link humdrumRest Comment
highlight default link humdrumNull Comment
highlight default link humdrumBar Special
highlight default link humdrumTandem PreProc
highlight default link humdrumPath Operator
highlight default link humdrumExclusive Type
highlight default link humdrumComment Comment
highlight default link humdrumGlobal Comment
highlight default link humdrumReference Keyword

let b:current_syntax = 'humdrum'
