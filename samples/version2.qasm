// Broken for the crate: forms of OpenQASM 2, and a branch without braces.
OPENQASM 3;
qreg q[2];
creg c[2];
h q[0];
measure q[0] -> c[0];
if (c == 1) x q[1];
