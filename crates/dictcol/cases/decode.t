a newline alone:

  $ printf '{"dictionary":[""],"final_newline":true,"lines":[0]}' | dictcol decode
  

a newline behind no line:

  $ printf '{"dictionary":[],"final_newline":true,"lines":[]}' | dictcol decode
  

an empty line at the end:

  $ printf '{"dictionary":["a",""],"final_newline":true,"lines":[0,1]}' | dictcol decode
  a
  

an empty line at the start:

  $ printf '{"dictionary":["","a"],"final_newline":false,"lines":[0,1]}' | dictcol decode
  
  a (no-eol)

an empty line without newline:

  $ printf '{"dictionary":[""],"final_newline":false,"lines":[0]}' | dictcol decode

blanks:

  $ printf '{"dictionary":[" a","a "],"final_newline":true,"lines":[0,1,0]}' | dictcol decode
   a
  a 
   a

blanks between:

  $ printf ' {\n "lines" : [ 1 , 0 ] ,\t"final_newline" : false,"dictionary":["a","b"]}\n' | dictcol decode
  b
  a (no-eol)

carriage returns:

  $ printf '{"dictionary":["a\\r","a"],"final_newline":true,"lines":[0,1]}' | dictcol decode
  a\x0d (esc)
  a

controls:

  $ printf '{"dictionary":["\\u0000","\\u001f","\\t","\\b","\\f","\177"],"final_newline":true,"lines":[0,1,2,3,4,5]}' | dictcol decode
  \x00 (esc)
  \x1f (esc)
  \x09 (esc)
  \x08 (esc)
  \x0c (esc)
  \x7f (esc)

escaped letters:

  $ printf '{"dictionary":["\\u00e9\\ud83d\\ude00"],"final_newline":false,"lines":[0]}' | dictcol decode
  é😀 (no-eol)

letters of two to four bytes:

  $ printf '{"dictionary":["é","€","😀"," "],"final_newline":false,"lines":[0,1,2,3,0]}' | dictcol decode
  é
  €
  😀
   
  é (no-eol)

lines that look like a file:

  $ printf '{"dictionary":["{\\"dictionary\\":[]}","0"],"final_newline":true,"lines":[0,1]}' | dictcol decode
  {"dictionary":[]}
  0

more members:

  $ printf '{"dictionary":["a"],"final_newline":true,"lines":[0],"made":"by hand"}' | dictcol decode
  a

no newline at the end:

  $ printf '{"dictionary":["a","b"],"final_newline":false,"lines":[0,1]}' | dictcol decode
  a
  b (no-eol)

not utf8:

  $ printf '{"dictionary":["a"],\n"final_newline":true,"lines":[\377]}' | dictcol decode
  dictcol: line 2 is not UTF-8
  [2]

nothing:

  $ printf '{"dictionary":[],"final_newline":false,"lines":[]}' | dictcol decode

one letter:

  $ printf '{"dictionary":["a"],"final_newline":false,"lines":[0]}' | dictcol decode
  a (no-eol)

quotes and bars:

  $ printf '{"dictionary":["\\"","\\\\","/"],"final_newline":true,"lines":[0,1,2]}' | dictcol decode
  "
  \
  /

texts out of order:

  $ printf '{"dictionary":["a","b","never"],"final_newline":true,"lines":[1,0]}' | dictcol decode
  b
  a

the last of two members:

  $ printf '{"lines":[7],"dictionary":["a"],"final_newline":true,"lines":[0]}' | dictcol decode
  a

three colors:

  $ printf '{"dictionary":["red","green"],"final_newline":true,"lines":[0,1,0]}' | dictcol decode
  red
  green
  red

two newlines:

  $ printf '{"dictionary":[""],"final_newline":true,"lines":[0,0]}' | dictcol decode
  
  
