OPENQASM 2.0;
qreg q[4];
CX q[3],q[1];
