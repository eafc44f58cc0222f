x $0;
cx $0, $1;
delay[6dt] $0;
x $1;
barrier $0, $1;
x $0;
