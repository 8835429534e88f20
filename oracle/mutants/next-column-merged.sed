# etagere/src/allocator.rs: an empty next shelf is merged in though it is of another column
/&& self.shelves\[next_shelf.index()\].is_empty$/{
n
s/&& self.shelves\[next_shelf.index()\].x == x {/{/
}
