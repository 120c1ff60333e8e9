a newline alone:

  $ dictcol encode <<'END'
  > 
  > END
  {"dictionary":[""],"final_newline":true,"lines":[0]}

an empty line at the end:

  $ dictcol encode <<'END'
  > a
  > 
  > END
  {"dictionary":["a",""],"final_newline":true,"lines":[0,1]}

an empty line at the start:

  $ printf '\na' | dictcol encode
  {"dictionary":["","a"],"final_newline":false,"lines":[0,1]}

blanks:

  $ dictcol encode <<'END'
  >  a
  > a 
  >  a
  > END
  {"dictionary":[" a","a "],"final_newline":true,"lines":[0,1,0]}

carriage returns:

  $ printf 'a\r\na\n' | dictcol encode
  {"dictionary":["a\r","a"],"final_newline":true,"lines":[0,1]}

controls:

  $ printf '\000\n\037\n\t\n\010\n\014\n\177\n' | dictcol encode
  {"dictionary":["\\u0000","\\u001f","\\t","\\b","\\f","\x7f"],"final_newline":true,"lines":[0,1,2,3,4,5]} (esc)

invalid parts replaced:

  $ printf 'a\n\377b\n\342\202\n' | dictcol encode --invalid=replace
  {"dictionary":["a","�b","�"],"final_newline":true,"lines":[0,1,2]}

letters of two to four bytes:

  $ printf 'é\n€\n😀\n \né' | dictcol encode
  {"dictionary":["é","€","😀"," "],"final_newline":false,"lines":[0,1,2,3,0]}

lines that look like a file:

  $ dictcol encode <<'END'
  > {"dictionary":[]}
  > 0
  > END
  {"dictionary":["{\"dictionary\":[]}","0"],"final_newline":true,"lines":[0,1]}

no newline at the end:

  $ printf 'a\nb' | dictcol encode
  {"dictionary":["a","b"],"final_newline":false,"lines":[0,1]}

nothing:

  $ dictcol encode <<'END'
  > END
  {"dictionary":[],"final_newline":false,"lines":[]}

one letter:

  $ printf 'a' | dictcol encode
  {"dictionary":["a"],"final_newline":false,"lines":[0]}

over bucket:

  $ printf 'b\na\n\nb\na\nc' | dictcol encode --backend bucket
  {"dictionary":["b","a","","c"],"final_newline":false,"lines":[0,1,2,0,1,3]}

over buffer:

  $ printf 'b\na\n\nb\na\nc' | dictcol encode --backend buffer
  {"dictionary":["b","a","","c"],"final_newline":false,"lines":[0,1,2,0,1,3]}

over string:

  $ printf 'b\na\n\nb\na\nc' | dictcol encode --backend string
  {"dictionary":["b","a","","c"],"final_newline":false,"lines":[0,1,2,0,1,3]}

quotes and bars:

  $ dictcol encode <<'END'
  > "
  > \
  > /
  > END
  {"dictionary":["\"","\\","/"],"final_newline":true,"lines":[0,1,2]}

the first line is not utf8:

  $ printf '\377\na\n' | dictcol encode
  dictcol: line 1 is not UTF-8 (see --invalid)
  [2]

the last backend:

  $ dictcol encode --backend string --backend buffer <<'END'
  > a
  > END
  {"dictionary":["a"],"final_newline":true,"lines":[0]}

the last line is not utf8:

  $ printf 'a\n\342\202' | dictcol encode
  dictcol: line 2 is not UTF-8 (see --invalid)
  [2]

the third line is not utf8:

  $ printf 'a\nb\n\303\n' | dictcol encode
  dictcol: line 3 is not UTF-8 (see --invalid)
  [2]

three colors:

  $ dictcol encode <<'END'
  > red
  > green
  > red
  > END
  {"dictionary":["red","green"],"final_newline":true,"lines":[0,1,0]}

two newlines:

  $ dictcol encode <<'END'
  > 
  > 
  > END
  {"dictionary":[""],"final_newline":true,"lines":[0,0]}

a last line without the field and without a newline:

  $ printf 'a,b\nc' | dictcol encode -f 2 -t ,
  {"dictionary":["b",""],"final_newline":true,"lines":[0,1]}

a last line with the field and without a newline:

  $ printf 'a\nb,c' | dictcol encode -f 2 -t,
  {"dictionary":["","c"],"final_newline":false,"lines":[0,1]}
