# etagere/src/allocator.rs: a row used again keeps its generation
s/\.generation\.wrapping_add(1);/.generation;/
