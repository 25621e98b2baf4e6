" Vim syntax file
" Language: Concurrent Pascal
" Install: copy it to ~/.vim/syntax, and add to ~/.vim/filetype.vim
"   autocmd BufRead,BufNewFile *.cp setfiletype concurrent_pascal

if exists("b:current_syntax")
  finish
endif

syntax case ignore
syntax keyword cpStatement begin case cycle do downto else end for if init of repeat then to until while
syntax keyword cpStructure array class const entry function monitor procedure process record type var
syntax keyword cpReserved in program set univ with
syntax keyword cpOperator div mod not or
syntax keyword cpType boolean char integer queue
syntax keyword cpConstant false true
syntax keyword cpFunction abs accept chr continue delay display empty ord pred realtime succ wait
syntax match cpNumber /\<\d\+\>/
syntax region cpComment start=/"/ end=/"/
syntax match cpCharacter /'\((:\d\+:)\|[^']\)'/

highlight default link cpStatement Statement
highlight default link cpStructure Structure
highlight default link cpReserved Error
highlight default link cpOperator Operator
highlight default link cpType Type
highlight default link cpConstant Constant
highlight default link cpFunction Function
highlight default link cpNumber Number
highlight default link cpComment Comment
highlight default link cpCharacter Character

let b:current_syntax = "concurrent_pascal"
