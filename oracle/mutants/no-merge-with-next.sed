# etagere/src/allocator.rs: a released item does not take in a free next one
s/if next.is_some() \&\& !self.items\[next.index()\].allocated {/if false {/
