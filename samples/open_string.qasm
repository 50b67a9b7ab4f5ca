// A string that is never closed: its quote is an error, and the rest of the line is program text.
OPENQASM 3.0;
include "stdgates.inc;
qubit q;
x q;
