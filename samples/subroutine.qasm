// A subroutine that measures a parity and one that only computes.
OPENQASM 3.0;
include "stdgates.inc";
def parity(qubit a, qubit b, int[8] rounds) -> bit {
    bit p;
    for int i in [1:rounds] {
        cx a, b;
        p = measure b;
        reset b;
    }
    return p;
}
def clamp(int[32] x, int[32] top) -> int[32] {
    if (x > top) {
        return top;
    }
    return x;
}
qubit[2] q;
bit r = parity(q[0], q[1], 3);
int[32] y = clamp(17, 12);
