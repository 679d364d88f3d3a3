" Colours expression files (*.raml) and network files (*.net), and knows their comments. Copy it to ~/.vim/plugin/, or
"   :source tools/raml.vim

function! s:Policy() abort
    setlocal commentstring=#\ %s
    syntax clear
    syntax keyword ramlHead let main raml
    syntax keyword ramlBase add cap worst width lp op seq simseq tags guard gate table
    syntax keyword ramlOperator lex scoped union sum plus left right
    syntax keyword ramlNone none
    syntax match ramlNumber /\<\d\+\>/
    syntax match ramlMark /->\|\.\.\|[<=;:,]/
    syntax match ramlComment /#.*/
    highlight default link ramlHead Keyword
    highlight default link ramlBase Type
    highlight default link ramlOperator Function
    highlight default link ramlNone Constant
    highlight default link ramlNumber Number
    highlight default link ramlMark Operator
    highlight default link ramlComment Comment
endfunction

function! s:Network() abort
    setlocal commentstring=#\ %s
    syntax clear
    syntax match ramlLine /^\s*\(node\|link\|both\|origin\|then\s\+\(link\|drop\)\)\>/
    syntax match ramlAt /\s\zsat\ze\s/
    syntax match ramlLabel /:\zs[^#]*/
    syntax match ramlNote /#.*/
    highlight default link ramlLine Keyword
    highlight default link ramlAt Keyword
    highlight default link ramlLabel Constant
    highlight default link ramlNote Comment
endfunction

augroup raml
    autocmd!
    autocmd BufRead,BufNewFile *.raml setfiletype raml
    autocmd BufRead,BufNewFile *.net setfiletype ramlnet
    autocmd FileType,Syntax raml call s:Policy()
    autocmd FileType,Syntax ramlnet call s:Network()
augroup END
