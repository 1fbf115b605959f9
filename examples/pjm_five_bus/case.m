function mpc = pjm_five_bus
% PJM five-bus training system, DC data.
% Buses: 1 A, 2 B, 3 C, 4 D (reference), 5 E. Values as in MATPOWER's case5.
mpc.version = '2';
mpc.baseMVA = 100;
% bus_i type Pd Qd Gs Bs area Vm Va baseKV zone Vmax Vmin
mpc.bus = [
    1  2  0    0  0  0  1  1  0  230  1  1.1  0.9;
    2  1  300  0  0  0  1  1  0  230  1  1.1  0.9;
    3  2  300  0  0  0  1  1  0  230  1  1.1  0.9;
    4  3  400  0  0  0  1  1  0  230  1  1.1  0.9;
    5  2  0    0  0  0  1  1  0  230  1  1.1  0.9;
];
% bus Pg Qg Qmax Qmin Vg mBase status Pmax Pmin
mpc.gen = [
    1  0  0  0  0  1  100  1  40   0;  % 1 Alta
    1  0  0  0  0  1  100  1  170  0;  % 2 Park City
    3  0  0  0  0  1  100  1  520  0;  % 3 Solitude
    4  0  0  0  0  1  100  1  200  0;  % 4 Sundance
    5  0  0  0  0  1  100  1  600  0;  % 5 Brighton
];
% fbus tbus r x b rateA rateB rateC ratio angle status angmin angmax
mpc.branch = [
    1  2  0  0.0281  0  400  400  400  0  0  1  -360  360;  % 1 A-B
    1  4  0  0.0304  0  0    0    0    0  0  1  -360  360;  % 2 A-D
    1  5  0  0.0064  0  0    0    0    0  0  1  -360  360;  % 3 A-E
    2  3  0  0.0108  0  0    0    0    0  0  1  -360  360;  % 4 B-C
    3  4  0  0.0297  0  0    0    0    0  0  1  -360  360;  % 5 C-D
    4  5  0  0.0297  0  240  240  240  0  0  1  -360  360;  % 6 D-E
];
