# etagere/src/allocator.rs: clear keeps the occupied total
s/^        self.allocated_space = 0;$//
