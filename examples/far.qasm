OPENQASM 2.0;
qreg q[6];
CX q[0],q[4];
