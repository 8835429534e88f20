# etagere/src/allocator.rs: a shelf of exactly D + D/2 is a bad fit
s/shelf.height > bad_fit_threshold;/shelf.height >= bad_fit_threshold;/
