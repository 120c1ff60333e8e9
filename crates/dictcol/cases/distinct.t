colors:

  $ dictcol distinct <<'END'
  > red
  > green
  > red
  > END
  red
  green

empty lines:

  $ dictcol distinct <<'END'
  > 
  > a
  > 
  > a
  > END
  
  a

nothing:

  $ dictcol distinct <<'END'
  > END

over bucket:

  $ dictcol distinct --backend bucket <<'END'
  > b
  > a
  > b
  > END
  b
  a

over buffer:

  $ dictcol distinct --backend buffer <<'END'
  > b
  > a
  > b
  > END
  b
  a

the second field:

  $ dictcol distinct -f 2 -t , <<'END'
  > a,b,c
  > d,b
  > e
  > f,
  > g,h
  > END
  b
  
  h

the first field, between tabs:

  $ dictcol distinct --field=1 <<'END'
  > a	b
  > a c	b
  > a
  > END
  a
  a c
