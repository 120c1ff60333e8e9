animals, bucket:

  $ intern bucket <<'END'
  > i Tiger
  > i Horse
  > i Tiger
  > g Horse
  > r 1
  > len
  > g Bear
  > END
  symbol 0
  symbol 1
  symbol 0
  symbol 1
  text Horse
  len 2
  none

animals, buffer:

  $ intern buffer <<'END'
  > i Tiger
  > i Horse
  > i Tiger
  > g Horse
  > r 1
  > len
  > g Bear
  > END
  symbol 0
  symbol 6
  symbol 0
  symbol 6
  text Horse
  len 2
  none

animals, string:

  $ intern string <<'END'
  > i Tiger
  > i Horse
  > i Tiger
  > g Horse
  > r 1
  > len
  > g Bear
  > END
  symbol 0
  symbol 1
  symbol 0
  symbol 1
  text Horse
  len 2
  none

asked back, bucket:

  $ intern bucket <<'END'
  > i Elephant
  > i Tiger
  > i Tiger
  > r 1
  > g Horse
  > END
  symbol 0
  symbol 1
  symbol 1
  text Tiger
  none

asked back, buffer:

  $ intern buffer <<'END'
  > i Elephant
  > i Tiger
  > i Tiger
  > r 1
  > g Horse
  > END
  symbol 0
  symbol 9
  symbol 9
  text Tiger
  none

asked back, string:

  $ intern string <<'END'
  > i Elephant
  > i Tiger
  > i Tiger
  > r 1
  > g Horse
  > END
  symbol 0
  symbol 1
  symbol 1
  text Tiger
  none

bucket capacities:

  $ intern bucket <<'END'
  > i a
  > i bc
  > i de
  > i fghijklm
  > i 
  > r 1
  > r 3
  > len
  > END
  symbol 0
  symbol 1
  symbol 2
  symbol 3
  symbol 4
  text bc
  text fghijklm
  len 5

each command, bucket:

  $ intern bucket <<'END'
  > i Tiger
  > n 1
  > n 6
  > r 5
  > r 1
  > r 0
  > len
  > shrink
  > END
  symbol 0
  none
  none
  no reply
  no reply
  text Tiger
  len 1
  ok

each command, buffer:

  $ intern buffer <<'END'
  > i Tiger
  > n 1
  > n 6
  > r 5
  > r 1
  > r 0
  > len
  > shrink
  > END
  symbol 0
  none
  none
  no reply
  no reply
  text Tiger
  len 1
  ok

each command, string:

  $ intern string <<'END'
  > i Tiger
  > n 1
  > n 6
  > r 5
  > r 1
  > r 0
  > len
  > shrink
  > END
  symbol 0
  none
  none
  no reply
  no reply
  text Tiger
  len 1
  ok

empty text between:

  $ intern string <<'END'
  > i 
  > i a
  > i 
  > n 0
  > n 2
  > len
  > END
  symbol 0
  symbol 1
  symbol 0
  text 
  none
  len 2

empty text, bucket:

  $ intern bucket <<'END'
  > i 
  > r 0
  > END
  symbol 0
  text 

empty text, buffer:

  $ intern buffer <<'END'
  > i 
  > r 0
  > END
  symbol 0
  text 

empty text, string:

  $ intern string <<'END'
  > i 
  > r 0
  > END
  symbol 0
  text 

first texts:

  $ intern string <<'END'
  > i Elephant
  > i Tiger
  > i Tiger
  > END
  symbol 0
  symbol 1
  symbol 1

known text, bucket:

  $ intern bucket <<'END'
  > i Tiger
  > i Tiger
  > len
  > END
  symbol 0
  symbol 0
  len 1

known text, buffer:

  $ intern buffer <<'END'
  > i Tiger
  > i Tiger
  > len
  > END
  symbol 0
  symbol 0
  len 1

known text, string:

  $ intern string <<'END'
  > i Tiger
  > i Tiger
  > len
  > END
  symbol 0
  symbol 0
  len 1

no lines, bucket:

  $ intern bucket <<'END'
  > END

no lines, buffer:

  $ intern buffer <<'END'
  > END

no lines, string:

  $ intern string <<'END'
  > END

shrunk between, bucket:

  $ intern bucket <<'END'
  > shrink
  > i Tiger
  > shrink
  > i Tiger
  > i Horse
  > shrink
  > r 1
  > r 4
  > g Horse
  > END
  ok
  symbol 0
  ok
  symbol 0
  symbol 1
  ok
  text Tiger
  text Horse
  symbol 1

shrunk between, buffer:

  $ intern buffer <<'END'
  > shrink
  > i Tiger
  > shrink
  > i Tiger
  > i Horse
  > shrink
  > r 1
  > r 4
  > g Horse
  > END
  ok
  symbol 0
  ok
  symbol 0
  symbol 6
  ok
  text Tiger
  text Horse
  symbol 6

shrunk between, string:

  $ intern string <<'END'
  > shrink
  > i Tiger
  > shrink
  > i Tiger
  > i Horse
  > shrink
  > r 1
  > r 4
  > g Horse
  > END
  ok
  symbol 0
  ok
  symbol 0
  symbol 1
  ok
  text Tiger
  text Horse
  symbol 1

shrunk twice:

  $ intern string <<'END'
  > shrink
  > i a
  > shrink
  > n 0
  > END
  ok
  symbol 0
  ok
  text a

symbol of a look up, bucket:

  $ intern bucket <<'END'
  > i a
  > i b
  > g b
  > r 2
  > END
  symbol 0
  symbol 1
  symbol 1
  text b

symbol of a look up, buffer:

  $ intern buffer <<'END'
  > i a
  > i b
  > g b
  > r 2
  > END
  symbol 0
  symbol 2
  symbol 2
  text b

symbol of a look up, string:

  $ intern string <<'END'
  > i a
  > i b
  > g b
  > r 2
  > END
  symbol 0
  symbol 1
  symbol 1
  text b

text with a space:

  $ intern string <<'END'
  > i i a
  > i é
  > i i a
  > g i
  > r 1
  > END
  symbol 0
  symbol 1
  symbol 0
  none
  text é

texts that differ by one character, bucket:

  $ printf 'i \ni a\ni a\r\ni a \ni a\000\ni \ni a\000\ng a\r\nn 2\n' | intern bucket
  symbol 0
  symbol 1
  symbol 2
  symbol 3
  symbol 4
  symbol 0
  symbol 4
  symbol 2
  text a\x0d (esc)

texts that differ by one character, buffer:

  $ printf 'i \ni a\ni a\r\ni a \ni a\000\ni \ni a\000\ng a\r\nn 2\n' | intern buffer
  symbol 0
  symbol 1
  symbol 3
  symbol 6
  symbol 9
  symbol 0
  symbol 9
  symbol 3
  none

texts that differ by one character, string:

  $ printf 'i \ni a\ni a\r\ni a \ni a\000\ni \ni a\000\ng a\r\nn 2\n' | intern string
  symbol 0
  symbol 1
  symbol 2
  symbol 3
  symbol 4
  symbol 0
  symbol 4
  symbol 2
  text a\x0d (esc)

thirteen texts, bucket:

  $ intern bucket <<'END'
  > i 0
  > i 1
  > i 2
  > i 3
  > i 4
  > i 5
  > i 6
  > i 7
  > i 8
  > i 9
  > i 10
  > i 11
  > i 12
  > g 12
  > g 13
  > i 0
  > r 12
  > len
  > END
  symbol 0
  symbol 1
  symbol 2
  symbol 3
  symbol 4
  symbol 5
  symbol 6
  symbol 7
  symbol 8
  symbol 9
  symbol 10
  symbol 11
  symbol 12
  symbol 12
  none
  symbol 0
  text 12
  len 13

thirteen texts, buffer:

  $ intern buffer <<'END'
  > i 0
  > i 1
  > i 2
  > i 3
  > i 4
  > i 5
  > i 6
  > i 7
  > i 8
  > i 9
  > i 10
  > i 11
  > i 12
  > g 12
  > g 13
  > i 0
  > r 12
  > len
  > END
  symbol 0
  symbol 2
  symbol 4
  symbol 6
  symbol 8
  symbol 10
  symbol 12
  symbol 14
  symbol 16
  symbol 18
  symbol 20
  symbol 23
  symbol 26
  symbol 26
  none
  symbol 0
  text 12
  len 13

thirteen texts, string:

  $ intern string <<'END'
  > i 0
  > i 1
  > i 2
  > i 3
  > i 4
  > i 5
  > i 6
  > i 7
  > i 8
  > i 9
  > i 10
  > i 11
  > i 12
  > g 12
  > g 13
  > i 0
  > r 12
  > len
  > END
  symbol 0
  symbol 1
  symbol 2
  symbol 3
  symbol 4
  symbol 5
  symbol 6
  symbol 7
  symbol 8
  symbol 9
  symbol 10
  symbol 11
  symbol 12
  symbol 12
  none
  symbol 0
  text 12
  len 13

greatest numbers:

  $ intern string <<'END'
  > n 18446744073709551615
  > r 00000000000000000000000000018446744073709551615
  > END
  none
  no reply

number with leading zeros:

  $ intern string <<'END'
  > i a
  > n 000
  > END
  symbol 0
  text a

number without newline:

  $ printf 'i a\nn 000' | intern string
  symbol 0
  text a

numbers without a text, bucket:

  $ intern bucket <<'END'
  > i a
  > n 0
  > n 1
  > n 4294967295
  > n 18446744073709551615
  > r 1
  > r 0
  > len
  > END
  symbol 0
  text a
  none
  none
  none
  no reply
  text a
  len 1

numbers without a text, buffer:

  $ intern buffer <<'END'
  > i a
  > n 0
  > n 1
  > n 4294967295
  > n 18446744073709551615
  > r 1
  > r 0
  > len
  > END
  symbol 0
  text a
  none
  none
  none
  no reply
  text a
  len 1

numbers without a text, string:

  $ intern string <<'END'
  > i a
  > n 0
  > n 1
  > n 4294967295
  > n 18446744073709551615
  > r 1
  > r 0
  > len
  > END
  symbol 0
  text a
  none
  none
  none
  no reply
  text a
  len 1

replies that are no symbols:

  $ intern string <<'END'
  > i a
  > g a
  > g 
  > len
  > n 1
  > r 5
  > r 3
  > END
  symbol 0
  symbol 0
  none
  len 1
  none
  no reply
  no reply

reply before any:

  $ intern string <<'END'
  > r 0
  > END
  no reply

reply of itself and later:

  $ intern string <<'END'
  > r 0
  > r 1
  > i a
  > r 3
  > r 2
  > END
  no reply
  no reply
  symbol 0
  no reply
  text a

too large a number:

  $ intern string <<'END'
  > n 18446744073709551616
  > END
  bad line 1
  [2]

too large a number after zeros:

  $ intern string <<'END'
  > n 000018446744073709551616
  > END
  bad line 1
  [2]

too large a reply number:

  $ intern string <<'END'
  > r 18446744073709551616
  > END
  bad line 1
  [2]

bad line after a good one:

  $ intern string <<'END'
  > i Elephant
  > x
  > y
  > END
  bad line 2
  [2]

damage after a bad line:

  $ printf 'x\ni a\377' | intern string
  cannot read input
  [1]

damage after a good line:

  $ printf 'i Elephant\n\377\n' | intern string
  cannot read input
  [1]

damage at the start:

  $ printf '\377i a\n' | intern string
  cannot read input
  [1]

empty line at the end:

  $ intern string <<'END'
  > len
  > 
  > END
  bad line 2
  [2]

empty line between:

  $ printf 'i a\n\ni b' | intern string
  bad line 2
  [2]

first of two bad lines:

  $ intern string <<'END'
  > i a
  > i b
  > x
  > y
  > END
  bad line 3
  [2]

half a character at the end:

  $ printf 'i a\ni \303' | intern string
  cannot read input
  [1]

last line without newline:

  $ printf 'len' | intern string
  len 0

newline alone:

  $ intern string <<'END'
  > 
  > END
  bad line 1
  [2]

one bad line:

  $ intern string <<'END'
  > x
  > END
  bad line 1
  [2]

surrogate:

  $ printf 'i \355\240\200\n' | intern string
  cannot read input
  [1]

text that is not utf8:

  $ printf 'i \377\n' | intern string
  cannot read input
  [1]

texts without newline:

  $ printf 'i Elephant\ni Tiger' | intern string
  symbol 0
  symbol 1

two newlines at the end:

  $ intern string <<'END'
  > i a
  > 
  > END
  bad line 2
  [2]

no word:

  $ intern <<'END'
  > i Elephant
  > END
  usage: intern string|bucket|buffer
  [2]

no word and no lines:

  $ intern <<'END'
  > END
  usage: intern string|bucket|buffer
  [2]

two words:

  $ intern string string <<'END'
  > i Elephant
  > END
  usage: intern string|bucket|buffer
  [2]

two words of two backends:

  $ intern string bucket <<'END'
  > i Elephant
  > END
  usage: intern string|bucket|buffer
  [2]

word with a capital:

  $ intern String <<'END'
  > i Elephant
  > END
  usage: intern string|bucket|buffer
  [2]
