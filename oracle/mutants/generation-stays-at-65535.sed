# etagere/src/allocator.rs: the generation does not wrap
s/\.generation\.wrapping_add(1);/.generation.saturating_add(1);/
