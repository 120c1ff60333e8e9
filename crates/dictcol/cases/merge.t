a damaged file:

  $ printf '{"dictionary":["a"],"final_newline":true,"lines":[1]}' | dictcol merge -
  dictcol: lines[0] is not the index of a text
  [2]

a newline behind no line:

  $ printf '{"dictionary":[],"final_newline":true,"lines":[]}' | dictcol merge -
  {"dictionary":[""],"final_newline":true,"lines":[0]}

an empty last line:

  $ printf '{"dictionary":["a",""],"final_newline":false,"lines":[0,1]}' | dictcol merge -
  {"dictionary":["a"],"final_newline":true,"lines":[0]}

an empty line alone:

  $ printf '{"dictionary":[""],"final_newline":false,"lines":[0]}' | dictcol merge -
  {"dictionary":[],"final_newline":false,"lines":[]}

colors:

  $ dictcol merge - <<'END'
  > {"dictionary":["red","green"],"final_newline":true,"lines":[0,1,0]}
  > END
  {"dictionary":["red","green"],"final_newline":true,"lines":[0,1,0]}

nothing:

  $ printf '{"dictionary":[],"final_newline":false,"lines":[]}' | dictcol merge -
  {"dictionary":[],"final_newline":false,"lines":[]}

over buffer:

  $ printf '{"dictionary":["red","green","blue"],"final_newline":true,"lines":[0,1,2,1]}' | dictcol merge --backend=buffer -
  {"dictionary":["red","green","blue"],"final_newline":true,"lines":[0,1,2,1]}

texts out of order:

  $ printf '{"lines":[2,0,2],"dictionary":["b","unused","a"],"final_newline":false}' | dictcol merge -
  {"dictionary":["a","b"],"final_newline":false,"lines":[0,1,0]}
