# script.rs: an atlas may be 65528 deep
s/|| h > 65527 ||/|| h > 65528 ||/
