// A comment that is never closed is a slash, a star and program text: nothing is dropped in silence.
OPENQASM 3.0;
qubit q;
/* x q;
y q;
