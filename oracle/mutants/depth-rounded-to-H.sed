# etagere/src/allocator.rs: a depth that rounds to H exactly stays unrounded
s/if adjusted_size > atlas_height {/if adjusted_size >= atlas_height {/
