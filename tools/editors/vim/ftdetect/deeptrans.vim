" A text of DeepTrans is told by its first line with tokens.
function! s:detect() abort
  for line in getline(1, 100)
    if line =~# '^\s*\(model\|requests\|image\)\s\+\d\+\s*\(#.*\)\?$'
          \ || line =~# '^\s*\(impossible\|budget\s\+\d\+\)\s*\(#.*\)\?$'
      setfiletype deeptrans
    endif
    if line !~# '^\s*\(#.*\)\?$'
      return
    endif
  endfor
endfunction

autocmd BufNewFile,BufRead * call s:detect()
