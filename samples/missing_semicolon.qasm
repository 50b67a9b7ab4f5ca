// Broken: two statements lack their semicolon.
qubit[2] q;
h q[0]
bit b = measure q[0]
x q[1];
