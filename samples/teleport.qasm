// Teleportation of a state, with corrections that hang on what was measured.
OPENQASM 3.0;
include "stdgates.inc";
qubit[3] q;
bit c0;
bit c1;
bit result;
// the state to send
U(0.3, 0.2, 0.1) q[0];
// the pair that is shared
h q[1];
cx q[1], q[2];
barrier q;
cx q[0], q[1];
h q[0];
c0 = measure q[0];
c1 = measure q[1];
if (c0 == 1) { z q[2]; }
if (c1 == 1) { x q[2]; }
result = measure q[2];
