# script.rs: the largest area there is within the limits, 49981 x 42966, is refused
s/w \* h > 2147483647/w * h > 2147483645/
