// Behind the @ of a modifier a space is needed: without one it begins an annotation, which takes the rest of its line.
OPENQASM 3.0;
include "stdgates.inc";
qubit[2] q;
@optimise none
ctrl @ x q[0], q[1];
ctrl @x q[0], q[1];
y q[0];
