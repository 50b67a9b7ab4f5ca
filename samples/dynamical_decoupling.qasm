// Dynamical decoupling: one qubit is kept by echoes while its neighbour works, and both are ready at the same time.
OPENQASM 3.0;
include "stdgates.inc";

const duration pulse = 40ns;
stretch g;
qubit[2] q;
bit[2] c;

reset q;
h q;
box {
    // x, y, x, y at equal distances: the stretch fills what the neighbour takes
    delay[g] q[0];
    x q[0];
    delay[2 * g - pulse] q[0];
    y q[0];
    delay[2 * g - pulse] q[0];
    x q[0];
    delay[2 * g - pulse] q[0];
    y q[0];
    delay[g] q[0];
    // the neighbour: a long sequence of its own
    for uint[8] i in [1:20] {
        sx q[1];
        delay[0.25us] q[1];
    }
}
barrier q;
h q[0];
delay[100ns] q;
c = measure q;
