// One item: the second stays where it is.
if (ready) { x $0; }
reset $1;
