# Makes codes in the notations in which they are published readable for the program, line by line, also if a file has them mixed:
#
#     LC_ALL=C sed -Ef examples/notations.sed FILE | ./bouwkamp check
#
# Each line of the input gives one line, so the numbers of lines stay. A line that is readable keeps its meaning, and so does a comment. A
# line that is in none of these notations stays refused. GNU sed; examples/notations/ has a line of each notation, and what becomes of it.

# A byte order mark; the carriage return of CR LF; tabs, and blanks that don't break, to blanks.
1s/^\xef\xbb\xbf//
s/\r$//
s/\t|\xc2\xa0/ /g

# A comment after # or % is one after ; and is laid aside until the end.
s/[#%]/;/
h
s/;.*//
x
s/^[^;]*//
x

# The signs of multiplication in a size: 33 x 32, 33X32, 33*32, 33×32.
s/^([^][(){}]*[0-9]) *(x|X|\*|\xc3\x97) *([0-9])/\1x\3/

# Names in front: 9:33x32A is the order and the size, 21:112A the order and the side of a square. Any other colon there is a blank.
s/^ *([0-9]+) *: *([0-9]+x[0-9]+) *[A-Za-z][A-Za-z0-9]*/\1 \2 /
s/^ *([0-9]+) *: *([0-9]+) *[A-Za-z][A-Za-z0-9]*/\1 \2x\2 /
:colon
s/^([^][(){}:]*):/\1 /
t colon

# Braces; brackets around the whole code, as in [[18,15],[7,8]]; a comma or a full stop at the end.
y/{}/[]/
s/ *[.,]? *$//
s/([[(]) *([[(].*[])]) *[])]$/\2/

# Sides between slashes or bars, also after an order and a size: 18,15/7,8 or 18 15 | 7 8.
s:[/|]$::
s:^( *([0-9]+ +)?[0-9]+x[0-9]+ +)?([0-9][0-9, ]*([/|][0-9, ]+)+)$:\1[\3]:
/^[^][(){}]*\[[^][(){}]*[/|]/s:[/|]:][:g

# A row of a table: commas for blanks, or a size in it. A square may have its side once: 21:112A 50 35 27.
/^[0-9, ]*$/y/,/ /
/^ *[0-9]+ +[0-9]+x[0-9]+ +[0-9][0-9, ]*$/{
    s/x/ /
    y/,/ /
}

# Blanks between sides: (18 15)(7 8). The blank between an order and a size is laid aside meanwhile.
s/  +/ /g
/[[(]/{
    s/^( ?[0-9]+) ([0-9]+x)/\1\n\2/
    s/([0-9]) ([0-9])/\1,\2/g
    s/([0-9]) ([0-9])/\1,\2/g
    s/\n/ /
}

# The comment again.
G
s/^\n//
s/\n;/ ;/
s/\n//
