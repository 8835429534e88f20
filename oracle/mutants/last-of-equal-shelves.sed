# etagere/src/allocator.rs: the last of equally deep shelves is taken
s/|| shelf.height >= selected_shelf_height {/|| shelf.height > selected_shelf_height {/
