/* Comments everywhere: they part tokens, and nothing else.
 * A line ends in one too. /* They do not nest, so this is the end: */
OPENQASM/**/3.0/* before a semicolon */;// and behind it
include /* "another.inc" */ "stdgates.inc";
/**/ /***/ /* // */ // /* this one goes to the end of its line
qubit /* two * of / them **/ [2] q; bit[2] c;
x/*a name ends here*/q[0];
include "a string keeps // and /* to itself";
if (c[0] == 1) { x q[1]; } // one operator
if (c[0] = /* */ = 1) { x q[1]; } // two tokens, and no operator
c[0] = c[0] <// in two lines
< 1;
