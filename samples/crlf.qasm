// Lines that end with CR LF: one end each. A comment, a pragma and an annotation end before the CR.
OPENQASM 3.0;
pragma timing coarse
include "stdgates.inc";
qubit[2] q;

@hold
h q[0];
cx q[0] q[1];
/* a comment
   of two lines */ x q[0]
y q[0];
z q[0] // a line that ends with a lone CRz q[1];
barrier q