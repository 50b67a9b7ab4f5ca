// Repeat until success: nested blocks, a while loop, break and end.
OPENQASM 3.0;
include "stdgates.inc";
qubit[3] q;
bit[2] flags = "11";
int[32] tries = 0;
while (int(flags) != 0) {
    reset q[0];
    {
        h q[0];
        {
            cx q[0], q[2];
            t q[2];
        }
        cx q[0], q[2];
    }
    flags[0] = measure q[0];
    tries += 1;
    if (tries > 10 && !false) {
        break;
    } else if (tries == 10) {
        x q[2];
    } else {
        z q[2];
    }
}
if (tries >= 10) {
    end;
}
