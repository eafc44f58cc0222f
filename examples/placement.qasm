x $0;
cx $0, $1;
delay[20dt] $1;
barrier $0, $1, $2;
x $2;
