OPENQASM 2.0;
qreg q[5];
CX q[0],q[4];
