function mpc = six_bus
% Six-bus system of Wood and Wollenberg, DC data.
% Values as in MATPOWER's case6ww, but PMIN is 0 (there 50, 37.5 and 45).
mpc.version = '2';
mpc.baseMVA = 100;
% bus_i type Pd Qd Gs Bs area Vm Va baseKV zone Vmax Vmin
mpc.bus = [
    1  3  0   0  0  0  1  1  0  230  1  1.05  0.95;
    2  2  0   0  0  0  1  1  0  230  1  1.05  0.95;
    3  2  0   0  0  0  1  1  0  230  1  1.05  0.95;
    4  1  70  0  0  0  1  1  0  230  1  1.05  0.95;
    5  1  70  0  0  0  1  1  0  230  1  1.05  0.95;
    6  1  70  0  0  0  1  1  0  230  1  1.05  0.95;
];
% bus Pg Qg Qmax Qmin Vg mBase status Pmax Pmin
mpc.gen = [
    1  0  0  0  0  1  100  1  200  0;
    2  0  0  0  0  1  100  1  150  0;
    3  0  0  0  0  1  100  1  180  0;
];
% fbus tbus r x b rateA rateB rateC ratio angle status angmin angmax
mpc.branch = [
    1  2  0  0.2   0  40  40  40  0  0  1  -360  360;  % 1
    1  4  0  0.2   0  60  60  60  0  0  1  -360  360;  % 2
    1  5  0  0.3   0  40  40  40  0  0  1  -360  360;  % 3
    2  3  0  0.25  0  40  40  40  0  0  1  -360  360;  % 4
    2  4  0  0.1   0  60  60  60  0  0  1  -360  360;  % 5
    2  5  0  0.3   0  30  30  30  0  0  1  -360  360;  % 6
    2  6  0  0.2   0  90  90  90  0  0  1  -360  360;  % 7
    3  5  0  0.26  0  70  70  70  0  0  1  -360  360;  % 8
    3  6  0  0.1   0  80  80  80  0  0  1  -360  360;  % 9
    4  5  0  0.4   0  20  20  20  0  0  1  -360  360;  % 10
    5  6  0  0.3   0  40  40  40  0  0  1  -360  360;  % 11
];
