# etagere/src/allocator.rs: an emptied shelf is merged into an empty one of another column
/&& self.shelves\[prev_shelf.index()\].is_empty$/{
n
s/&& self.shelves\[prev_shelf.index()\].x == x {/{/
}
