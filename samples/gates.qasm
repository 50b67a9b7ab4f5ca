// Gate definitions, and gates under modifiers.
OPENQASM 3.0;
gate h a {
    U(pi / 2, 0, pi) a;
    gphase(-pi / 4);
}
gate phase(lambda) a {
    U(0, 0, lambda) a;
}
gate cphase(theta, phi) a, b {
    U(0, 0, theta) a;
    ctrl @ U(0, phi, -theta) a, b;
}
qubit[4] q;
inv @ h q[0];
ctrl @ h q[0], q[1];
ctrl(2) @ phase(pi / 8) q[0], q[1], q[2];
negctrl @ inv @ phase(0.5) q[2], q[3];
pow(1 / 2) @ h q[3];
pow(-2) @ ctrl @ h q[0], q[3];
gphase(pi);
