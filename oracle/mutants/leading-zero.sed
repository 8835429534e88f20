# script.rs: a number may start with zeros
s/ || (digits\[0\] == b'0' && digits.len() > 1)//
