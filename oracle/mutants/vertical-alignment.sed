# etagere/src/allocator.rs: the shelf width of a vertical atlas is aligned by the other side
s/(options.alignment.height, size.height, size.width)/(options.alignment.width, size.height, size.width)/
