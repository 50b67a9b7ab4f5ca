// Phase estimation: the phase of a gate, in four bits, by an inverse Fourier transform.
OPENQASM 3.0;
include "stdgates.inc";

input angle[32] phase;
output bit[4] digits;
qubit[4] q;
qubit eigenstate;

reset q;
reset eigenstate;
x eigenstate;

// The gate 1, 2, 4 and 8 times, each under a qubit of its own.
for uint[8] i in [0:3] {
    h q[i];
    for uint[8] n in [1:1 << i] {
        ctrl @ p(phase) q[i], eigenstate;
    }
}

// The inverse Fourier transform: the swaps first, then each qubit turned back by those below it.
swap q[0], q[3];
swap q[1], q[2];
for uint[8] i in [0:3] {
    for uint[8] j in [0:i - 1] {
        cp(-pi / (2 << (i - j - 1))) q[j], q[i];
    }
    h q[i];
}

for uint[8] i in [0:3] {
    digits[i] = measure q[i];
}
