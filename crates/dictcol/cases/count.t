at least two:

  $ dictcol count --at-least 2 <<'END'
  > a
  > b
  > c
  > b
  > c
  > c
  > END
  2 b
  3 c

at least two, sorted:

  $ dictcol count --sorted --at-least=2 <<'END'
  > a
  > b
  > c
  > b
  > c
  > c
  > END
  3 c
  2 b

at least zero:

  $ dictcol count --at-least=0 <<'END'
  > a
  > b
  > END
  1 a
  1 b

at least as many as there can be:

  $ dictcol count --at-least=18446744073709551615 <<'END'
  > a
  > END

colors:

  $ dictcol count <<'END'
  > red
  > green
  > red
  > END
  2 red
  1 green

empty lines:

  $ dictcol count <<'END'
  > 
  > 
  > a
  > 
  > END
  3 
  1 a

encoded:

  $ dictcol count --encoded --sorted - <<'END'
  > {"dictionary":["green","red","blue"],"final_newline":false,"lines":[0,1,1]}
  > END
  2 red
  1 green

nothing:

  $ dictcol count <<'END'
  > END

over bucket:

  $ dictcol count --sorted --backend bucket <<'END'
  > b
  > a
  > 
  > a
  > END
  2 a
  1 b
  1 

over buffer:

  $ dictcol count --sorted --backend buffer <<'END'
  > b
  > a
  > 
  > a
  > END
  2 a
  1 b
  1 

over string:

  $ dictcol count --sorted --backend string <<'END'
  > b
  > a
  > 
  > a
  > END
  2 a
  1 b
  1 

sorted:

  $ dictcol count --sorted <<'END'
  > one
  > two
  > two
  > three
  > three
  > three
  > ONE
  > END
  3 three
  2 two
  1 one
  1 ONE

sorted ties stay in order:

  $ dictcol count --sorted <<'END'
  > z
  > y
  > x
  > y
  > z
  > w
  > END
  2 z
  2 y
  1 x
  1 w

the first line is not utf8:

  $ printf '\377\na\n' | dictcol count
  dictcol: line 1 is not UTF-8 (see --invalid)
  [2]

the last line is not utf8:

  $ printf 'a\n\342\202' | dictcol count
  dictcol: line 2 is not UTF-8 (see --invalid)
  [2]

the third line is not utf8:

  $ printf 'a\nb\n\303\n' | dictcol count
  dictcol: line 3 is not UTF-8 (see --invalid)
  [2]

the most frequent of an encoded file:

  $ dictcol count --top 1 --at-least 2 --encoded - <<'END'
  > {"dictionary":["green","red","blue"],"final_newline":true,"lines":[0,1,1,2,2]}
  > END
  2 red

the two most frequent:

  $ dictcol count --top=2 <<'END'
  > one
  > two
  > three
  > two
  > three
  > three
  > ONE
  > END
  3 three
  2 two

the two most frequent of those that occur twice:

  $ dictcol count --top 2 --at-least 2 <<'END'
  > one
  > two
  > two
  > END
  2 two

thirty lines sorted:

  $ dictcol count --sorted <<'END'
  > 0
  > 1
  > 2
  > 3
  > 4
  > 5
  > 6
  > 7
  > 8
  > 9
  > 10
  > 11
  > 12
  > 13
  > 14
  > 15
  > 16
  > 17
  > 18
  > 19
  > 20
  > 21
  > 22
  > 23
  > 24
  > 25
  > 26
  > 27
  > 28
  > 29
  > 29
  > 28
  > 29
  > END
  3 29
  2 28
  1 0
  1 1
  1 2
  1 3
  1 4
  1 5
  1 6
  1 7
  1 8
  1 9
  1 10
  1 11
  1 12
  1 13
  1 14
  1 15
  1 16
  1 17
  1 18
  1 19
  1 20
  1 21
  1 22
  1 23
  1 24
  1 25
  1 26
  1 27

top of equally frequent lines:

  $ dictcol count --sorted --top 9 --top 2 <<'END'
  > c
  > b
  > a
  > END
  1 c
  1 b

top of fewer lines:

  $ dictcol count --top 18446744073709551615 <<'END'
  > b
  > a
  > a
  > END
  2 a
  1 b

without newline at the end:

  $ printf 'a\nb\na' | dictcol count
  2 a
  1 b

zero terminated:

  $ printf 'a\nb\000a\nb\000c\000' | dictcol count -z
  2 a
  b\x001 c\x00 (no-eol) (esc)

the third field:

  $ dictcol count --sorted -f3 -t: <<'END'
  > root:x:0:0
  > toor:x:0:0
  > sync:x:4:65534
  > +
  > END
  2 0
  1 4
  1 

a field that is UTF-8, beside one that is not:

  $ printf 'caf\351 red\nth\351 red\n' | dictcol count --field 2 --separator ' '
  2 red
